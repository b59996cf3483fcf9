//! The curves of a file, each computed once and only as far as it is used.

use crate::cells::{squared, take_roots, write_cells, BATCH};
use crate::ramps::{push_ramps, write_speeds, Bands, Ramp};

const SPEEDS: usize = 301;

#[derive(Clone, Copy)]
struct Curve {
    ramps: u32,
    /// Where its times begin, and how many of them are known. The first is 0.
    times: u32,
    known: u32,
}

#[derive(Default)]
pub struct Curves {
    pub distance: f64,
    ramps: Vec<Ramp>,
    /// The times of all curves. Those of a curve that grows are copied to the end, and stay where they were too.
    pub times: Vec<u64>,
    /// The first is that of steady pieces: one time of 0.
    list: Vec<Curve>,
    bands: Vec<Bands>,
    /// For each of the bands, the curve by its first speed; 0 if there is none yet.
    by_speed: Vec<u16>,
}

impl Curves {
    pub fn clear(&mut self, step: usize) {
        self.distance = (720_000_000 * step) as f64;
        self.ramps.clear();
        self.times.clear();
        self.times.push(0);
        self.list.clear();
        self.list.push(Curve { ramps: 0, times: 0, known: 1 });
        self.bands.clear();
        self.by_speed.clear();
    }

    /// Where the curves with these bands are.
    pub fn of(&mut self, bands: Bands) -> usize {
        let known = self.bands.iter().position(|other| *other == bands);
        let number = known.unwrap_or_else(|| {
            self.bands.push(bands);
            self.by_speed.resize(self.by_speed.len() + SPEEDS, 0);
            self.bands.len() - 1
        });
        number * SPEEDS
    }

    /// The curve from a speed, given where those with its bands are.
    #[inline]
    pub fn curve(&mut self, curves: usize, kmh: u16) -> u16 {
        let at = curves + kmh as usize;
        if self.by_speed[at] == 0 {
            self.open(at, squared(kmh));
        }
        self.by_speed[at]
    }

    fn open(&mut self, at: usize, speed: u32) {
        self.by_speed[at] = self.list.len() as u16;
        self.list.push(Curve { ramps: self.ramps.len() as u32, times: self.times.len() as u32, known: 1 });
        self.times.push(0);
        push_ramps(&self.bands[at / SPEEDS], speed, &mut self.ramps);
    }

    #[inline]
    pub fn ramps(&self, curve: u16) -> &[Ramp] {
        &self.ramps[self.list[curve as usize].ramps as usize..]
    }

    /// Where the times of a curve begin, and the one after so many cells.
    #[inline]
    pub fn time(&mut self, curve: u16, cells: u32) -> (u32, u64) {
        if self.list[curve as usize].known <= cells {
            self.extend(curve as usize, cells);
        }
        let first = self.list[curve as usize].times;
        (first, self.times[(first + cells) as usize])
    }

    #[inline(never)]
    fn extend(&mut self, curve: usize, cells: u32) {
        let curve = &mut self.list[curve];
        let old = curve.times as usize..(curve.times + curve.known) as usize;
        if old.end != self.times.len() {
            curve.times = self.times.len() as u32;
            self.times.extend_from_within(old);
        }
        let mut time = self.times[self.times.len() - 1];
        while curve.known <= cells {
            let batch = BATCH.min((cells + 1 - curve.known).next_multiple_of(4) as usize);
            let (mut roots, mut cells) = ([0; BATCH + 4], [0; BATCH]);
            write_speeds(&self.ramps[curve.ramps as usize..], curve.known - 1, &mut roots[..=batch]);
            take_roots(&mut roots[..batch + 4]);
            write_cells(self.distance, &roots[..batch + 4], &mut cells[..batch]);
            self.times.extend(cells[..batch].iter().map(|cell| {
                time += cell;
                time
            }));
            curve.known += batch as u32;
        }
    }
}

//! The run of a train: squared speeds by two sweeps, then arrivals.

use crate::line::{Line, Train, Words};
use crate::Refusal;

const SECOND: u64 = 1_000_000;

fn squared(kmh: usize) -> u32 {
    let speed = 100 * kmh as u32;
    speed * speed
}

/// The squared speed that a band gains over one cell, and the one that it ends at.
#[derive(Clone, Copy, Default)]
struct Band {
    gain: u32,
    most: u32,
}

struct Bands {
    list: [Band; 8],
    count: usize,
    /// No band gains more than the one before it.
    falling: bool,
}

impl Bands {
    fn of(line: &Line, train: &Train) -> Self {
        let mut list = [Band::default(); 8];
        for (band, (top, rate)) in list.iter_mut().zip(train.tops.iter().zip(train.rates.iter())) {
            *band = Band { gain: (rate * 2592 * line.step) as u32, most: squared(top) };
        }
        let count = train.tops.len();
        Bands { list, count, falling: list[..count].windows(2).all(|pair| pair[0].gain >= pair[1].gain) }
    }

    /// Where the gains fall, the first band with its top above w gives the step, as long as it does not pass this top.
    fn step(&self, w: u32) -> u32 {
        let bands = &self.list[..self.count];
        if self.falling {
            if let Some(band) = bands.iter().find(|band| w < band.most) {
                if w + band.gain <= band.most {
                    return w + band.gain;
                }
            }
        }
        bands.iter().map(|band| (w + band.gain).min(band.most)).max().unwrap_or(0)
    }
}

/// No line has so many points.
const BEYOND: usize = usize::MAX;

/// The lowest limit from the cell of the tail to the cell of the head, as the train moves on. The tail is taken where it
/// surely is: 2 m further back, and 2 % of the distance since the latest balise.
struct Under<'a> {
    line: &'a Line<'a>,
    length: usize,
    /// The limits that the head and the tail are in.
    head: usize,
    tail: usize,
    /// How many balises the head has passed, and the place of the latest one, or 0.
    passed: usize,
    balise: usize,
    lowest: usize,
    /// The point at which the head or the tail next passes something.
    until: usize,
}

impl<'a> Under<'a> {
    fn new(line: &'a Line<'a>, length: usize) -> Self {
        Under { line, length, head: 0, tail: 0, passed: 0, balise: 0, lowest: 0, until: 0 }
    }

    fn move_to(&mut self, point: usize) {
        if point < self.until {
            return;
        }
        while self.to_balise() <= point {
            self.balise = self.line.balise(self.passed);
            self.passed += 1;
        }
        while self.to_limit() <= point {
            self.head += 1;
        }
        while self.to_leave() <= point {
            self.tail += 1;
        }
        let covered = (self.tail..=self.head).map(|j| self.line.limits.get(j));
        self.lowest = covered.min().unwrap_or(0);
        self.until = self.to_balise().min(self.to_limit()).min(self.to_leave());
    }

    /// The point at which the head is at the next balise or past it.
    fn to_balise(&self) -> usize {
        if self.passed == self.line.balise_points.len() {
            return BEYOND;
        }
        self.line.balise(self.passed).div_ceil(self.line.step)
    }

    /// The point at which the head comes to the next limit.
    fn to_limit(&self) -> usize {
        if self.head + 1 == self.line.limits.len() {
            return BEYOND;
        }
        self.line.limit_points.get(self.head + 1)
    }

    /// The point at which the tail surely leaves its limit, if the head passes no balise before. With 50 times each
    /// distance the 2 % are whole.
    fn to_leave(&self) -> usize {
        if self.tail == self.head {
            return BEYOND;
        }
        let place = self.line.limit_points.get(self.tail + 1) * self.line.step;
        (50 * (place + self.length + 2) - self.balise).div_ceil(49 * self.line.step)
    }
}

/// The stops as the points pass.
pub struct Stops<'a> {
    points: Words<'a>,
    dwells: Words<'a>,
    next: usize,
}

impl<'a> Stops<'a> {
    pub fn new(train: &Train<'a>) -> Self {
        Stops { points: train.stops, dwells: train.dwells, next: 0 }
    }

    /// The dwell in seconds if there is a stop at this point. Points must not fall from call to call.
    #[inline]
    pub fn dwell_at(&mut self, point: usize) -> Option<usize> {
        while self.next < self.points.len() && self.points.get(self.next) < point {
            self.next += 1;
        }
        let here = self.next < self.points.len() && self.points.get(self.next) == point;
        here.then(|| self.dwells.get(self.next))
    }

    /// The departure from this point: a dwell at the first or the last point does not count.
    pub fn departure(&mut self, point: usize, last: usize, arrival: u64) -> u64 {
        match self.dwell_at(point) {
            Some(dwell) if 0 < point && point < last => arrival + dwell as u64 * SECOND,
            _ => arrival,
        }
    }
}

/// Each entry at most its cap and the traction step of the one before.
fn sweep_forward(line: &Line, train: &Train, speeds: &mut [u32]) {
    let bands = Bands::of(line, train);
    let top = train.tops.last().unwrap_or(0);
    let mut under = Under::new(line, train.length);
    let mut stops = Stops::new(train);
    let mut before = u32::MAX;
    for (point, speed) in speeds.iter_mut().enumerate() {
        under.move_to(point);
        let cap = match stops.dwell_at(point) {
            Some(_) => 0,
            None => squared(under.lowest.min(top)),
        };
        // a step never falls below a cap that is at most the speed before
        before = if cap <= before { cap } else { cap.min(bands.step(before)) };
        *speed = before;
    }
}

/// Each entry at most the next one plus the braking loss.
fn sweep_backward(loss: u32, speeds: &mut [u32]) {
    let mut most = u32::MAX;
    for speed in speeds.iter_mut().rev() {
        *speed = most.min(*speed);
        most = *speed + loss;
    }
}

fn write_arrivals(line: &Line, train: &Train, speeds: &[u32], times: &mut [u64]) {
    let distance = 720_000_000 * line.step as u64;
    let last = line.points - 1;
    let mut stops = Stops::new(train);
    let mut root = speeds[0].isqrt();
    let mut arrival = 0;
    for point in 0..last {
        times[point] = arrival;
        // equal squared speeds have the same root
        let next_root = if speeds[point + 1] == speeds[point] { root } else { speeds[point + 1].isqrt() };
        arrival = stops.departure(point, last, arrival) + distance.div_ceil(u64::from(root + next_root));
        root = next_root;
    }
    times[last] = arrival;
}

/// Writes the run into the first entries of both buffers; rule 11 if one is too short.
pub fn write_run(line: &Line, train: &Train, speeds: &mut [u32], times: &mut [u64]) -> Result<(), Refusal> {
    let speeds = speeds.get_mut(..line.points).ok_or(11u64)?;
    let times = times.get_mut(..line.points).ok_or(11u64)?;
    sweep_forward(line, train, speeds);
    sweep_backward(line.braking_loss(train), speeds);
    write_arrivals(line, train, speeds, times);
    Ok(())
}

pub fn run(file: &[u8], k: u64, speeds: &mut [u32], times: &mut [u64]) -> Result<(), Refusal> {
    let line = Line::open(file)?;
    write_run(&line, &line.train(k)?, speeds, times)
}

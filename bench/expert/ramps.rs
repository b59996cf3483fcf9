//! The squared speeds of a curve: of a climb from its start, or of a braking from its end.

use crate::cells::squared;
use plain::line::Train;

const MOST_BANDS: usize = 8;
const MOST_RAMPS: usize = 2 * MOST_BANDS + 3;

/// The bands that gain more than every later one. The step from w is the greater of the most of the bands without room and w plus
/// the gain of the first band with room, so on a climb the band only moves forward.
#[derive(Clone, Copy, Default, PartialEq)]
pub struct Bands {
    gains: [u32; MOST_BANDS],
    mosts: [u32; MOST_BANDS],
}

impl Bands {
    /// A braking, seen from its end, gains its loss up to more than any squared speed.
    pub fn of_braking(loss: u32) -> Self {
        let mut bands = Bands::default();
        (bands.gains[0], bands.mosts[0]) = (loss, 1_000_000_000);
        bands
    }

    pub fn of_train(step: usize, train: &Train) -> Self {
        let mut bands = Bands::default();
        let mut count = 0;
        for (rate, top) in train.rates.iter().zip(train.tops.iter()) {
            let gain = (rate * 2592 * step) as u32;
            while 0 < count && bands.gains[count - 1] <= gain {
                count -= 1;
                (bands.gains[count], bands.mosts[count]) = (0, 0);
            }
            (bands.gains[count], bands.mosts[count]) = (gain, squared(top as u16));
            count += 1;
        }
        bands
    }
}

/// From a cell of the curve on, the squared speed rises by the same gain in each cell, up to the next ramp.
#[derive(Clone, Copy)]
pub struct Ramp {
    cell: u32,
    speed: u32,
    gain: u32,
}

/// Follows the last ramp of each curve.
const AFTER: Ramp = Ramp { cell: u32::MAX, speed: u32::MAX, gain: 0 };

/// The ramps of the curve from a squared speed. Where a band's most is above the step in the next band, one cell leads to it.
pub fn push_ramps(bands: &Bands, mut speed: u32, list: &mut Vec<Ramp>) {
    let mut ramps = [AFTER; MOST_RAMPS];
    let (mut count, mut cell, mut most) = (0, 0, 0);
    for (&gain, &band_most) in bands.gains.iter().zip(&bands.mosts).filter(|(gain, _)| **gain != 0) {
        if speed + gain < most && speed + gain <= band_most {
            ramps[count] = Ramp { cell, speed, gain: most - speed };
            (count, cell, speed) = (count + 1, cell + 1, most);
        }
        ramps[count] = Ramp { cell, speed, gain };
        let cells = band_most.saturating_sub(speed) / gain;
        count += usize::from(0 < cells);
        (cell, speed, most) = (cell + cells, speed + gain * cells, band_most);
    }
    ramps[count] = Ramp { cell, speed, gain: most - speed };
    count += usize::from(speed < most);
    ramps[count] = Ramp { cell: cell + u32::from(speed < most), speed: most, gain: 0 };
    list.extend_from_slice(&ramps[..count + 2]);
}

/// The least count of cells after which a climb is at the cap or above, and the squared speed one cell before.
#[inline]
pub fn reach(ramps: &[Ramp], cap: u32) -> (u32, u32) {
    if cap <= ramps[0].speed {
        return (0, 0);
    }
    let mut r = 0;
    while ramps[r + 1].speed < cap {
        r += 1;
    }
    let Ramp { cell, speed, gain } = ramps[r];
    let cells = (cap - speed - 1) / gain;
    (cell + cells + 1, speed + cells * gain)
}

/// The greatest count of cells after which the squared speed plus the loss of so many cells is at most this, and the squared
/// speed there.
#[inline]
pub fn last_within(ramps: &[Ramp], loss: u32, most: u64) -> (u32, u32) {
    let level = |r: usize| u64::from(ramps[r].speed) + u64::from(loss) * u64::from(ramps[r].cell);
    let mut r = 0;
    while level(r + 1) <= most {
        r += 1;
    }
    let Ramp { cell, speed, gain } = ramps[r];
    let cells = ((most - level(r)) / u64::from(gain + loss)) as u32;
    (cell + cells, speed + cells * gain)
}

/// The squared speeds from a cell on.
#[inline]
pub fn write_speeds(mut ramps: &[Ramp], first: u32, speeds: &mut [u32]) {
    while ramps[1].cell <= first {
        ramps = &ramps[1..];
    }
    let mut speed = ramps[0].speed + (first - ramps[0].cell) * ramps[0].gain;
    let mut left = ramps[1].cell - first;
    for w in speeds {
        *w = speed;
        speed += ramps[0].gain;
        left -= 1;
        if left == 0 {
            ramps = &ramps[1..];
            left = ramps[1].cell - ramps[0].cell;
        }
    }
}

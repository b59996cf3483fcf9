//! The points where the cap of a train changes.

use crate::balises::{Balises, Tail};
use plain::line::Line;

const MOST_LIMITS: usize = 64;
const SIZE: usize = MOST_LIMITS + 1;
const BEYOND: u32 = 1 << 16;

/// The limits, with one after the last that is never reached.
pub struct Limits {
    points: [u32; SIZE],
    kmh: [u16; SIZE],
    /// For each limit the next one that is not above it.
    lower: [u8; SIZE],
}

impl Limits {
    pub fn of(line: &Line) -> Self {
        let count = line.limits.len();
        let mut limits = Limits { points: [BEYOND; SIZE], kmh: [0; SIZE], lower: [count as u8; SIZE] };
        for (j, (point, kmh)) in line.limit_points.iter().zip(line.limits.iter()).enumerate() {
            (limits.points[j], limits.kmh[j]) = (point as u32, kmh as u16);
        }
        for j in (0..count).rev() {
            let mut next = j + 1;
            while limits.kmh[j] < limits.kmh[next] {
                next = limits.lower[next] as usize;
            }
            limits.lower[j] = next as u8;
        }
        limits
    }
}

/// The cap as the train moves on.
pub struct Cap<'a> {
    limits: &'a Limits,
    tail: Tail<'a>,
    top: u16,
    /// The last of the lowest limits under the train.
    fixing: usize,
    pub kmh: u16,
    /// The point from which another limit fixes the cap.
    pub until: u32,
}

impl<'a> Cap<'a> {
    pub fn new(limits: &'a Limits, balises: &'a Balises, length: usize, top: usize) -> Self {
        let mut cap = Cap { limits, tail: Tail::new(balises, length), top: top as u16, fixing: 0, kmh: 0, until: 0 };
        cap.fix(0);
        cap
    }

    fn fix(&mut self, limit: usize) {
        self.fixing = limit;
        let Limits { points, kmh, lower } = self.limits;
        self.kmh = kmh[limit].min(self.top);
        self.until = points[lower[limit] as usize].min(self.tail.passes(points[limit + 1]));
    }

    /// Moves to the next change: the head comes to a lower limit, or the tail leaves the fixing one.
    pub fn change(&mut self) {
        let Limits { points, lower, .. } = self.limits;
        let next_lower = lower[self.fixing] as usize;
        if points[next_lower] == self.until {
            return self.fix(next_lower);
        }
        let mut limit = self.fixing + 1;
        while points[lower[limit] as usize] <= self.until {
            limit = lower[limit] as usize;
        }
        self.fix(limit);
    }
}

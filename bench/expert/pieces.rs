//! The run as a short list of pieces: steady ones, climbs and brakings. A climb starts only from a cap or a stop, and a braking
//! ends only there.

use crate::balises::Balises;
use crate::caps::{Cap, Limits};
use crate::cells::squared;
use crate::curves::Curves;
use crate::ramps::{last_within, reach, Bands};
use plain::line::{Line, Train};

pub const NONE: u32 = u32::MAX;

#[derive(Clone, Copy, Default)]
pub struct Piece {
    pub start: u32,
    /// The squared speed at the start.
    pub speed: u32,
    /// The squared speed one point before the start if the piece before ends there; NONE if that one ends at the start.
    pub before: u32,
    /// In seconds.
    pub dwell: u32,
    /// Of a steady piece.
    pub kmh: u16,
    pub curve: u16,
    /// How the times of the curve are passed: 1 on a climb, -1 on a braking, 0 on a steady piece.
    pub stride: i32,
    /// The first point where a train that brakes from the start stands.
    pub stand: u32,
    /// Where in the times of all curves the start is.
    pub index: u32,
    /// The departure from the start.
    pub time: u64,
    /// Of a steady piece.
    pub cell_time: u64,
}

pub struct Run<'a> {
    pub pieces: &'a mut Vec<Piece>,
    /// Where the pieces of this run begin.
    pub first: usize,
    pub curves: &'a mut Curves,
    pub loss: u32,
    /// Where the curves of this train are.
    climbs: usize,
    brakings: usize,
}

impl<'a> Run<'a> {
    pub fn new(line: &Line, train: &Train, curves: &'a mut Curves, pieces: &'a mut Vec<Piece>) -> Self {
        let loss = line.braking_loss(train);
        let brakings = curves.of(Bands::of_braking(loss));
        let climbs = curves.of(Bands::of_train(line.step, train));
        Run { first: pieces.len(), pieces, curves, loss, climbs, brakings }
    }

    pub fn drive(&mut self, line: &Line, train: &Train, limits: &Limits, balises: &Balises) {
        let points = line.points as u32;
        let mut cap = Cap::new(limits, balises, train.length, train.tops.last().unwrap_or(0));
        let mut point = 0;
        for (stop, dwell) in train.stops.iter().zip(train.dwells.iter()) {
            let stop = stop as u32;
            self.drive_to(stop, point, &mut cap);
            let counted = 0 < stop && stop < points - 1;
            self.brake(stop, 0, if counted { dwell as u32 } else { 0 });
            point = stop + 1;
        }
        self.drive_to(points, point, &mut cap);
    }

    /// Drives from a point to the one before the stop.
    fn drive_to(&mut self, stop: u32, mut point: u32, cap: &mut Cap) {
        while point < stop {
            while cap.until <= point {
                cap.change();
            }
            let end = cap.until.min(stop);
            self.stretch(point, end, cap.kmh);
            point = end;
        }
    }

    /// Drives from one point to the one before the end, with one cap.
    #[inline(never)]
    fn stretch(&mut self, from: u32, end: u32, kmh: u16) {
        let Some(last) = self.pieces[self.first..].last_mut() else {
            return self.brake(from, kmh, 0);
        };
        if last.stride == 0 {
            if kmh == last.kmh {
                return;
            }
            if kmh < last.kmh {
                return self.brake(from, kmh, 0);
            }
            let curve = self.curves.curve(self.climbs, last.kmh);
            if last.start == from - 1 {
                (last.curve, last.kmh, last.stride) = (curve, 0, 1);
            } else {
                let speed = last.speed;
                self.pieces.push(Piece { start: from - 1, speed, before: NONE, curve, stride: 1, ..Piece::default() });
            }
        }
        self.climb_to(from, end, kmh);
    }

    /// Goes on with the climb that is the last piece: up to the cap, or down to it if the climb is above it already.
    fn climb_to(&mut self, from: u32, end: u32, kmh: u16) {
        let Piece { start, curve, .. } = self.pieces[self.pieces.len() - 1];
        let speed = squared(kmh);
        let (cells, before) = reach(self.curves.ramps(curve), speed);
        let start = start + cells;
        if start < from {
            self.brake(from, kmh, 0);
        } else if start < end {
            self.pieces.push(Piece { start, speed, before, kmh, ..Piece::default() });
        }
    }

    #[inline]
    fn last(&self) -> Option<&Piece> {
        self.pieces[self.first..].last()
    }

    /// Squared speed plus the loss up to the point: along a run it never falls, and on a braking it stays the same.
    #[inline]
    fn level(&self, point: u32, speed: u32) -> u64 {
        u64::from(speed) + u64::from(self.loss) * u64::from(point)
    }

    /// Ends the pieces so far where the braking to this point and speed has to begin, and starts a steady piece at the point.
    #[inline(never)]
    fn brake(&mut self, point: u32, kmh: u16, dwell: u32) {
        let speed = squared(kmh);
        let level = self.level(point, speed);
        while self.last().is_some_and(|last| level < self.level(last.start, last.speed)) {
            self.pieces.pop();
        }
        let (start, mut before) = self.last().map_or((0, NONE), |last| self.leave(last, point, speed));
        if start < point {
            let curve = self.curves.curve(self.brakings, kmh);
            let speed = speed + (point - start) * self.loss;
            self.pieces.push(Piece { start, speed, before, curve, stride: -1, ..Piece::default() });
            before = NONE;
        }
        self.pieces.push(Piece { start: point, speed, before, dwell, kmh, ..Piece::default() });
    }

    /// The point after the last one of a piece from which the train can still brake to this point and speed, and the squared
    /// speed at that last one.
    #[inline]
    fn leave(&self, piece: &Piece, point: u32, speed: u32) -> (u32, u32) {
        if piece.stride == 0 {
            return (point + 1 - (piece.speed - speed).div_ceil(self.loss), piece.speed);
        }
        let most = self.level(point - piece.start, speed);
        let (cells, speed) = last_within(self.curves.ramps(piece.curve), self.loss, most);
        (piece.start + cells + 1, speed)
    }
}

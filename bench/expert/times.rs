//! The times of a run's pieces.

use crate::cells::{cell_time, root};
use crate::pieces::{Piece, Run, NONE};

const SECOND: u64 = 1_000_000;

impl Piece {
    /// The departure from a point of the piece.
    #[inline]
    pub fn departure(&self, point: u32, times: &[u64]) -> u64 {
        let cells = point - self.start;
        let there = times[self.index.wrapping_add_signed(self.stride * cells as i32) as usize];
        let on_curve = there.wrapping_sub(times[self.index as usize]).wrapping_mul(self.stride as i64 as u64);
        self.time + u64::from(cells) * self.cell_time + on_curve
    }

    #[inline]
    pub fn arrival(&self, point: u32, times: &[u64]) -> u64 {
        self.departure(point, times) - if self.start == point { u64::from(self.dwell) * SECOND } else { 0 }
    }
}

impl Run<'_> {
    /// Sets the times of all pieces, and adds a last one of no cells at the last point.
    pub fn set_times(&mut self, last: u32) {
        self.pieces.push(Piece { start: last, before: NONE, stand: NONE, ..Piece::default() });
        let (pieces, curves, loss) = (&mut self.pieces[self.first..], &mut *self.curves, self.loss);
        let distance = curves.distance;
        let mut arrival = 0;
        for k in 1..pieces.len() {
            let [piece, next] = &mut pieces[k - 1..=k] else { break };
            if piece.before != NONE {
                arrival += cell_time(distance, root(piece.before) + root(piece.speed));
            }
            let cells = next.start - u32::from(next.before != NONE) - piece.start;
            piece.stand = piece.start + piece.speed.div_ceil(loss);
            piece.time = arrival + u64::from(piece.dwell) * SECOND;
            piece.cell_time = cell_time(distance, 200 * u32::from(piece.kmh));
            let (first, on_curve) = curves.time(piece.curve, piece.stride.unsigned_abs() * cells);
            piece.index = first + if piece.stride < 0 { cells } else { 0 };
            arrival = piece.time + u64::from(cells) * piece.cell_time + on_curve;
            next.time = arrival;
        }
    }
}

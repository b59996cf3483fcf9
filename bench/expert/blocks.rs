//! The blocks with their free times: the sheet of starts.

use crate::curves::Curves;
use crate::pieces::Piece;
use crate::ramps::last_within;
use plain::line::Line;

const MOST_BLOCKS: usize = 32;
const NO_POINTS: [u32; MOST_BLOCKS] = [0; MOST_BLOCKS];
const TENTH: u64 = 100_000;
const COMMUNICATION: u64 = 5_000_000;

pub struct Blocks {
    starts: [u32; MOST_BLOCKS],
    ends: [u32; MOST_BLOCKS],
    free: [u64; MOST_BLOCKS],
    count: usize,
    clearing: u64,
}

impl Blocks {
    pub fn of(line: &Line) -> Self {
        let (count, clearing) = (line.block_ends.len(), (line.release + line.set_up) as u64 * TENTH + COMMUNICATION);
        let mut blocks = Blocks { starts: NO_POINTS, ends: NO_POINTS, free: [0; MOST_BLOCKS], count, clearing };
        for (j, (start, end)) in line.block_starts.iter().zip(line.block_ends.iter()).enumerate() {
            (blocks.starts[j], blocks.ends[j]) = (start as u32, end as u32);
        }
        blocks
    }

    /// The least start of the train added and the last block that fixes it, counted from 1.
    pub fn add(&mut self, pieces: &[Piece], curves: &Curves, loss: u32, cells: u32) -> (u64, u64) {
        let (mut start, mut block) = (0, 0);
        let mut k = 0;
        for j in 0..self.count {
            let (block_start, free) = (self.starts[j], self.free[j]);
            while pieces[k + 1].stand <= block_start {
                k += 1;
            }
            // the hold does not begin before the departure from the piece's start, so most blocks need no closer look
            if start + pieces[k].time <= free {
                let wait = free.saturating_sub(begin(&pieces[k], block_start, loss, curves));
                if 0 < wait && start <= wait {
                    (start, block) = (wait, j as u64 + 1);
                }
            }
        }
        self.occupy(pieces, &curves.times, cells, start + self.clearing);
        (start, block)
    }

    /// Sets the free times to the ends of the holds, later by the start and the clearing.
    fn occupy(&mut self, pieces: &[Piece], times: &[u64], cells: u32, later: u64) {
        let mut k = 0;
        for (&end, free) in self.ends[..self.count].iter().zip(&mut self.free[..self.count]) {
            let point = end + cells;
            while k + 1 < pieces.len() && pieces[k + 1].start <= point {
                k += 1;
            }
            *free = pieces[k].arrival(point, times) + later;
        }
    }
}

/// The departure from the approach point, if it is in this piece, or else from point 0.
#[inline]
fn begin(piece: &Piece, block_start: u32, loss: u32, curves: &Curves) -> u64 {
    if block_start < piece.stand {
        return 0;
    }
    let point = if piece.stride == 0 {
        block_start - (piece.stand - piece.start)
    } else {
        let most = u64::from(loss) * u64::from(block_start - piece.start);
        piece.start + last_within(curves.ramps(piece.curve), loss, most).0
    };
    piece.departure(point, &curves.times)
}

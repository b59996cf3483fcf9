//! The sheet of a file with every shortcut that leaves its figures equal, to show how far the others are from the limit. Opening
//! a file is the plain program's. Nothing is proved here.

mod balises;
mod blocks;
mod caps;
mod cells;
mod curves;
mod pieces;
mod ramps;
mod times;

use balises::Balises;
use blocks::Blocks;
use caps::Limits;
use curves::Curves;
use pieces::{Piece, Run};
use plain::line::{Line, Train};
use plain::Refusal;
use std::cell::RefCell;
use std::ops::Range;

/// Lists that keep their memory from call to call, so that nothing is allocated or cleared.
#[derive(Default)]
struct Lists {
    balises: Balises,
    curves: Curves,
    pieces: Vec<Piece>,
    known: Vec<Known>,
}

/// A train whose run is known.
struct Known {
    length: usize,
    /// Where the train is in the file, and where the pieces of its run are.
    record: Range<usize>,
    pieces: Range<usize>,
}

thread_local! {
    static LISTS: RefCell<Lists> = RefCell::default();
}

impl Lists {
    /// The pieces of a train's run, computed unless an equal train was there before.
    fn pieces(&mut self, file: &[u8], record: Range<usize>, line: &Line, train: &Train, limits: &Limits) -> Range<usize> {
        let length = train.length;
        let equal = |other: &&Known| other.length == length && file[other.record.clone()] == file[record.clone()];
        if let Some(known) = self.known.iter().find(equal) {
            return known.pieces.clone();
        }
        let first = self.pieces.len();
        let mut run = Run::new(line, train, &mut self.curves, &mut self.pieces);
        run.drive(line, train, limits, &self.balises);
        run.set_times(line.points as u32 - 1);
        let pieces = first..self.pieces.len();
        self.known.push(Known { length, record, pieces: pieces.clone() });
        pieces
    }
}

/// Writes each train's start, running time and block, and gives the count of trains.
pub fn rows(file: &[u8], starts: &mut [u64], runs: &mut [u64], blocks: &mut [u64]) -> Result<u64, Refusal> {
    let line = Line::open(file)?;
    if starts.len().min(runs.len()).min(blocks.len()) < line.trains.len() {
        return Err(11);
    }
    LISTS.with_borrow_mut(|lists| {
        lists.balises.take(&line);
        lists.curves.clear(line.step);
        lists.pieces.clear();
        lists.known.clear();
        let limits = Limits::of(&line);
        let mut sheet = Blocks::of(&line);
        let mut at = 16 + 4 * (line.limits.len() + line.block_ends.len() + line.balise_points.len());
        for (k, train) in line.trains.iter().enumerate() {
            let end = at + 8 + 4 * (train.tops.len() + train.stops.len());
            let pieces = lists.pieces(file, at..end, &line, &train, &limits);
            let pieces = &lists.pieces[pieces];
            runs[k] = pieces[pieces.len() - 1].time;
            (starts[k], blocks[k]) = sheet.add(pieces, &lists.curves, line.braking_loss(&train), line.cells(&train) as u32);
            at = end;
        }
    });
    Ok(line.trains.len() as u64)
}

//! A whole file in one call: its sizes, the columns of its sheet, and the sheet as text.

use crate::hold::hold_on;
use crate::line::Line;
use crate::sheet::Sheet;
use crate::Refusal;
use std::fmt::Write;

pub const MOST_POINTS: usize = 4096;
const MOST_TRAINS: usize = 64;

#[derive(Default)]
pub struct Sizes {
    pub points: u64,
    pub step: u64,
    pub blocks: u64,
    pub trains: u64,
}

pub fn sizes(file: &[u8]) -> Result<Sizes, Refusal> {
    let line = Line::open(file)?;
    Ok(Sizes {
        points: line.points as u64,
        step: line.step as u64,
        blocks: line.block_ends.len() as u64,
        trains: line.trains.len() as u64,
    })
}

/// Writes each train's start, running time and block, and gives the count of trains.
pub fn rows(file: &[u8], starts: &mut [u64], runs: &mut [u64], blocks: &mut [u64]) -> Result<u64, Refusal> {
    let line = Line::open(file)?;
    if starts.len().min(runs.len()).min(blocks.len()) < line.trains.len() {
        return Err(11);
    }
    let mut speeds = [0; MOST_POINTS];
    let mut times = [0; MOST_POINTS];
    let mut sheet = Sheet::open(line.block_ends.len() as u64)?;
    for (k, train) in line.trains.iter().enumerate() {
        let hold = hold_on(&line, &train, &mut speeds, &mut times)?;
        (starts[k], blocks[k]) = sheet.add(&hold)?;
        runs[k] = times[line.points - 1];
    }
    Ok(line.trains.len() as u64)
}

/// Writes the sheet's text and gives its count of bytes.
pub fn study(file: &[u8], text: &mut [u8]) -> Result<u64, Refusal> {
    let (mut starts, mut runs, mut blocks) = ([0; MOST_TRAINS], [0; MOST_TRAINS], [0; MOST_TRAINS]);
    let trains = rows(file, &mut starts, &mut runs, &mut blocks)? as usize;
    let mut sheet = String::from("train start run block\n");
    for k in 0..trains {
        writeln!(sheet, "{} {} {} {}", k + 1, starts[k], runs[k], blocks[k]).expect("a string takes all");
    }
    text.get_mut(..sheet.len()).ok_or(11u64)?.copy_from_slice(sheet.as_bytes());
    Ok(sheet.len() as u64)
}

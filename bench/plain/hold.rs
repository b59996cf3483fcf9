//! The hold of a train: for each block its beginning and its end.

use crate::line::{Line, Train};
use crate::run::{write_run, Stops};
use crate::sheet::HoldRecord;
use crate::Refusal;

const TENTH: u64 = 100_000;
const COMMUNICATION: u64 = 5_000_000;

/// Along a run the squared speed plus the loss times the point never falls, so the approach points of
/// blocks in order are found by going forward only.
fn approach_point(speeds: &[u32], loss: u64, from: usize, start: usize) -> usize {
    let mut point = from;
    while point < start && speeds[point + 1] as u64 <= loss * (start - point - 1) as u64 {
        point += 1;
    }
    point
}

fn hold_record(line: &Line, train: &Train, speeds: &[u32], times: &[u64]) -> HoldRecord {
    let loss = line.braking_loss(train) as u64;
    let cells = line.cells(train);
    let clearing = (line.release + line.set_up) as u64 * TENTH + COMMUNICATION;
    let mut stops = Stops::new(train);
    let mut hold = HoldRecord { blocks: line.block_ends.len() as u64, ..HoldRecord::default() };
    let mut point = 0;
    for (j, (start, end)) in line.block_starts.iter().zip(line.block_ends.iter()).enumerate() {
        point = approach_point(speeds, loss, point, start);
        hold.begins[j] = stops.departure(point, line.points - 1, times[point]);
        hold.ends[j] = times[end + cells] + clearing;
    }
    hold
}

/// The run and the hold of a train of an accepted file.
pub fn hold_on(line: &Line, train: &Train, speeds: &mut [u32], times: &mut [u64]) -> Result<HoldRecord, Refusal> {
    write_run(line, train, speeds, times)?;
    Ok(hold_record(line, train, speeds, times))
}

pub fn hold(file: &[u8], k: u64, speeds: &mut [u32], times: &mut [u64]) -> Result<HoldRecord, Refusal> {
    let line = Line::open(file)?;
    hold_on(&line, &line.train(k)?, speeds, times)
}

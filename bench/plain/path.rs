//! A path for one more train.

use crate::sheet::{HoldRecord, Sheet};
use crate::Refusal;

const MOST_ROWS: usize = 64;
const LATEST_START: u64 = 1 << 50;
const LATEST_END: u64 = 1 << 44;

/// The train ahead has left every block before the one behind comes.
fn clears(ahead: u64, ends: &[u64], behind: u64, begins: &[u64]) -> bool {
    ends.iter().zip(begins).all(|(end, begin)| ahead + end <= behind + begin)
}

fn is_sound(count: usize, starts: &[u64], begins: &[u64], ends: &[u64], low: u64, high: u64) -> bool {
    let entries = starts.len().saturating_mul(count);
    let (row_begins, row_ends) = (|k: usize| &begins[k * count..][..count], |k: usize| &ends[k * count..][..count]);
    starts.len() <= MOST_ROWS
        && (begins.len(), ends.len()) == (entries, entries)
        && starts.iter().all(|&start| start <= LATEST_START)
        && begins.iter().zip(ends).all(|(begin, end)| begin < end && *end <= LATEST_END)
        && (1..starts.len()).all(|k| clears(starts[k - 1], row_ends(k - 1), starts[k], row_begins(k)))
        && low <= high
        && high <= LATEST_START
}

/// The least start in the window that has a place among the placed trains, and how many of them are before it.
pub fn path(
    hold: &HoldRecord, starts: &[u64], begins: &[u64], ends: &[u64], low: u64, high: u64,
) -> Result<(u64, u64), Refusal> {
    Sheet::open(hold.blocks)?.add(hold)?;
    let count = hold.blocks as usize;
    if !is_sound(count, starts, begins, ends, low, high) {
        return Err(16);
    }
    let mut start = low;
    let mut before = 0;
    while before < starts.len() && !clears(start, &hold.ends[..count], starts[before], &begins[before * count..]) {
        for j in 0..count {
            start = start.max((starts[before] + ends[before * count + j]).saturating_sub(hold.begins[j]));
        }
        before += 1;
    }
    if start <= high { Ok((start, before as u64)) } else { Err(17) }
}

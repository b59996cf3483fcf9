//! The sheet of starts.

use crate::Refusal;

pub const MOST_BLOCKS: usize = 32;
const MOST_TRAINS: u64 = 64;
const LATEST_END: u64 = 1 << 44;
/// A hundredth of an hour in microseconds.
const PERCENT: u64 = 36_000_000;

#[repr(C)]
#[derive(Clone, Copy, Default, PartialEq, Debug)]
pub struct HoldRecord {
    pub blocks: u64,
    pub begins: [u64; MOST_BLOCKS],
    pub ends: [u64; MOST_BLOCKS],
}

#[repr(C)]
#[derive(Clone, Copy, Default, PartialEq, Debug)]
pub struct Sheet {
    pub blocks: u64,
    pub trains: u64,
    pub free: [u64; MOST_BLOCKS],
    /// The first train's beginnings.
    pub first: [u64; MOST_BLOCKS],
}

impl Sheet {
    pub fn open(blocks: u64) -> Result<Self, Refusal> {
        let sheet = Sheet { blocks, ..Sheet::default() };
        if sheet.is_sound() { Ok(sheet) } else { Err(12) }
    }

    fn is_sound(&self) -> bool {
        (1..=MOST_BLOCKS as u64).contains(&self.blocks)
            && self.trains <= MOST_TRAINS
            && self.free[..self.blocks as usize].iter().all(|&free| free <= self.trains * LATEST_END)
            && (self.trains == 0 || (0..self.blocks as usize).all(|j| self.first[j] < self.free[j]))
    }

    fn takes(&self, hold: &HoldRecord) -> bool {
        self.blocks == hold.blocks
            && (0..self.blocks as usize).all(|j| hold.begins[j] < hold.ends[j] && hold.ends[j] <= LATEST_END)
    }

    /// The least start of the train added and the last block that fixes it, counted from 1.
    pub fn add(&mut self, hold: &HoldRecord) -> Result<(u64, u64), Refusal> {
        if !self.is_sound() {
            return Err(12);
        }
        if self.trains == MOST_TRAINS {
            return Err(13);
        }
        if !self.takes(hold) {
            return Err(14);
        }
        let (mut start, mut block) = (0, 0);
        for j in (0..self.blocks as usize).rev() {
            let wait = self.free[j].saturating_sub(hold.begins[j]);
            if start < wait {
                (start, block) = (wait, j as u64 + 1);
            }
        }
        for j in 0..self.blocks as usize {
            self.free[j] = start + hold.ends[j];
            if self.trains == 0 {
                self.first[j] = hold.begins[j];
            }
        }
        self.trains += 1;
        Ok((start, block))
    }

    /// The shortest period with which the trains are repeated, and its percentage of an hour to the nearest.
    pub fn period(&self) -> Result<(u64, u64), Refusal> {
        if !self.is_sound() {
            return Err(12);
        }
        if self.trains == 0 {
            return Ok((0, 0));
        }
        let period = (0..self.blocks as usize).map(|j| self.free[j] - self.first[j]).max().unwrap_or(0);
        Ok((period, (period + PERCENT / 2) / PERCENT))
    }
}

pub fn headway(first: &HoldRecord, second: &HoldRecord) -> Result<u64, Refusal> {
    let mut sheet = Sheet::open(first.blocks)?;
    sheet.add(first)?;
    sheet.add(second).map(|(start, _)| start)
}

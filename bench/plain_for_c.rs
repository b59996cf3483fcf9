//! The plain program under the names of the library for C, so that the tests can be tried against it.

use plain::{HoldRecord, Refusal, Sheet};
use std::slice;

#[repr(C)]
pub struct RecordAnswer {
    number: u64,
    start: u64,
    length: u64,
}

#[repr(C)]
pub struct SizesAnswer {
    number: u64,
    points: u64,
    step: u64,
    blocks: u64,
    trains: u64,
}

#[repr(C)]
pub struct RowsAnswer {
    number: u64,
    trains: u64,
}

#[repr(C)]
pub struct Written {
    number: u64,
    bytes: u64,
}

#[repr(C)]
pub struct HoldAnswer {
    number: u64,
    hold: HoldRecord,
}

#[repr(C)]
pub struct Added {
    number: u64,
    start: u64,
    block: u64,
}

#[repr(C)]
pub struct HeadwayAnswer {
    number: u64,
    headway: u64,
}

#[repr(C)]
pub struct PeriodAnswer {
    number: u64,
    period: u64,
    percent: u64,
}

#[repr(C)]
pub struct PathAnswer {
    number: u64,
    start: u64,
    before: u64,
}

/// What is lent; a pointer with length 0 may be null.
unsafe fn lent<'a, T>(at: *const T, len: usize) -> &'a [T] {
    if len == 0 { &[] } else { slice::from_raw_parts(at, len) }
}

unsafe fn lent_to_write<'a, T>(at: *mut T, len: usize) -> &'a mut [T] {
    if len == 0 { &mut [] } else { slice::from_raw_parts_mut(at, len) }
}

/// The number of the answer, 0 if it is accepted, and its value, all zero if it is refused.
fn split<T: Default>(answer: Result<T, Refusal>) -> (Refusal, T) {
    match answer {
        Ok(value) => (0, value),
        Err(number) => (number, T::default()),
    }
}

#[no_mangle]
pub unsafe extern "C" fn vr_check_file(file: *const u8, len: usize) -> u64 {
    split(plain::check_file(lent(file, len))).0
}

#[no_mangle]
pub unsafe extern "C" fn vr_check_train(file: *const u8, len: usize, k: u64) -> u64 {
    split(plain::check_train(lent(file, len), k)).0
}

#[no_mangle]
pub unsafe extern "C" fn vr_train_record(file: *const u8, len: usize, k: u64) -> RecordAnswer {
    let (number, part) = split(plain::train_record(lent(file, len), k));
    RecordAnswer { number, start: part.start as u64, length: part.len() as u64 }
}

#[no_mangle]
pub unsafe extern "C" fn vr_sizes(file: *const u8, len: usize) -> SizesAnswer {
    let (number, sizes) = split(plain::sizes(lent(file, len)));
    SizesAnswer { number, points: sizes.points, step: sizes.step, blocks: sizes.blocks, trains: sizes.trains }
}

#[no_mangle]
pub unsafe extern "C" fn vr_rows(
    file: *const u8, len: usize, starts: *mut u64, n1: usize, runs: *mut u64, n2: usize, blocks: *mut u64, n3: usize,
) -> RowsAnswer {
    let (starts, runs, blocks) = (lent_to_write(starts, n1), lent_to_write(runs, n2), lent_to_write(blocks, n3));
    let (number, trains) = split(plain::rows(lent(file, len), starts, runs, blocks));
    RowsAnswer { number, trains }
}

#[no_mangle]
pub unsafe extern "C" fn vr_study(file: *const u8, len: usize, text: *mut u8, n: usize) -> Written {
    let (number, bytes) = split(plain::study(lent(file, len), lent_to_write(text, n)));
    Written { number, bytes }
}

#[no_mangle]
pub unsafe extern "C" fn vr_diagram(file: *const u8, len: usize, k: u64, bytes: *mut u8, n: usize) -> Written {
    let (number, bytes) = split(plain::diagram(lent(file, len), k, lent_to_write(bytes, n)));
    Written { number, bytes }
}

#[no_mangle]
pub unsafe extern "C" fn vr_run(
    file: *const u8, len: usize, k: u64, speeds: *mut u32, ns: usize, times: *mut u64, nt: usize,
) -> u64 {
    let (speeds, times) = (lent_to_write(speeds, ns), lent_to_write(times, nt));
    split(plain::run(lent(file, len), k, speeds, times)).0
}

#[no_mangle]
pub unsafe extern "C" fn vr_hold(
    file: *const u8, len: usize, k: u64, speeds: *mut u32, ns: usize, times: *mut u64, nt: usize,
) -> HoldAnswer {
    let (speeds, times) = (lent_to_write(speeds, ns), lent_to_write(times, nt));
    let (number, hold) = split(plain::hold(lent(file, len), k, speeds, times));
    HoldAnswer { number, hold }
}

#[no_mangle]
pub extern "C" fn vr_open(blocks: u64, sheet: &mut Sheet) -> u64 {
    split(Sheet::open(blocks).map(|opened| *sheet = opened)).0
}

#[no_mangle]
pub extern "C" fn vr_add(sheet: &mut Sheet, hold: &HoldRecord) -> Added {
    let (number, (start, block)) = split(sheet.add(hold));
    Added { number, start, block }
}

#[no_mangle]
pub extern "C" fn vr_headway(first: &HoldRecord, second: &HoldRecord) -> HeadwayAnswer {
    let (number, headway) = split(plain::headway(first, second));
    HeadwayAnswer { number, headway }
}

#[no_mangle]
pub extern "C" fn vr_period(sheet: &Sheet) -> PeriodAnswer {
    let (number, (period, percent)) = split(sheet.period());
    PeriodAnswer { number, period, percent }
}

#[no_mangle]
pub unsafe extern "C" fn vr_path(
    hold: &HoldRecord, starts: *const u64, n: usize, begins: *const u64, nb: usize, ends: *const u64, ne: usize, low: u64, high: u64,
) -> PathAnswer {
    let (number, (start, before)) = split(plain::path(hold, lent(starts, n), lent(begins, nb), lent(ends, ne), low, high));
    PathAnswer { number, start, before }
}

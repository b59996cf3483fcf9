//! Times the whole sheet of line files, one call for a file, by the library, by the plain program and by the expert's, in turn,
//! and prints a table of the processor time.
//!
//!     sheets ROUNDS NAME=FILE_OR_FOLDER...

use std::hint::black_box;
use std::path::Path;

const MOST_TRAINS: usize = 64;
const LEAST_SECONDS: f64 = 0.005;
const THREAD_TIME: i32 = 3; // CLOCK_THREAD_CPUTIME_ID

#[repr(C)]
struct RowsAnswer {
    number: u64,
    trains: u64,
}

#[repr(C)]
struct TimeOfClock {
    seconds: i64,
    nanoseconds: i64,
}

extern "C" {
    fn clock_gettime(clock: i32, time: *mut TimeOfClock) -> i32;
    fn vr_rows(
        file: *const u8, len: usize, starts: *mut u64, n1: usize, runs: *mut u64, n2: usize, blocks: *mut u64, n3: usize,
    ) -> RowsAnswer;
}

/// The columns of a sheet, lent to each call anew.
#[derive(PartialEq, Debug)]
struct Columns {
    starts: [u64; MOST_TRAINS],
    runs: [u64; MOST_TRAINS],
    blocks: [u64; MOST_TRAINS],
}

impl Columns {
    fn new() -> Self {
        Columns { starts: [0; MOST_TRAINS], runs: [0; MOST_TRAINS], blocks: [0; MOST_TRAINS] }
    }
}

/// One way to work out a sheet: gives the count of trains. A refusal is a fault of the file given, and ends the program.
type Rows = fn(&[u8], &mut Columns) -> u64;

fn by_library(file: &[u8], columns: &mut Columns) -> u64 {
    let Columns { starts, runs, blocks } = columns;
    // SAFETY: each pointer goes with the length of its slice.
    let answer = unsafe {
        vr_rows(
            file.as_ptr(), file.len(), starts.as_mut_ptr(), starts.len(), runs.as_mut_ptr(), runs.len(),
            blocks.as_mut_ptr(), blocks.len(),
        )
    };
    assert_eq!(answer.number, 0);
    answer.trains
}

fn by_plain(file: &[u8], columns: &mut Columns) -> u64 {
    let Columns { starts, runs, blocks } = columns;
    plain::rows(file, starts, runs, blocks).expect("accepted")
}

fn by_expert(file: &[u8], columns: &mut Columns) -> u64 {
    let Columns { starts, runs, blocks } = columns;
    expert::rows(file, starts, runs, blocks).expect("accepted")
}

const WAYS: [Rows; 3] = [by_library, by_plain, by_expert];

/// One file, or all files of a folder.
struct Case {
    name: String,
    files: Vec<Vec<u8>>,
}

impl Case {
    fn read(argument: &str) -> Self {
        let (name, path) = argument.split_once('=').expect("NAME=FILE_OR_FOLDER");
        let mut paths = vec![Path::new(path).to_path_buf()];
        if paths[0].is_dir() {
            paths = std::fs::read_dir(path).expect("a folder").map(|entry| entry.expect("a file").path()).collect();
            paths.sort();
        }
        let files = paths.iter().map(|path| std::fs::read(path).expect("a line file")).collect();
        Case { name: name.to_string(), files }
    }

    /// Points times trains, of all files.
    fn entries(&self) -> u64 {
        self.files.iter().map(|file| plain::sizes(file).expect("accepted")).map(|sizes| sizes.points * sizes.trains).sum()
    }
}

/// Every figure of all three.
fn check_equal(case: &Case) {
    for file in &case.files {
        let figures = WAYS.map(|rows| {
            let mut columns = Columns::new();
            (rows(file, &mut columns), columns)
        });
        assert_eq!(figures[0], figures[1], "{}", case.name);
        assert_eq!(figures[0], figures[2], "{}", case.name);
    }
}

/// Seconds of the processor spent in this thread, whatever else the machine does.
fn processor_time() -> f64 {
    let mut time = TimeOfClock { seconds: 0, nanoseconds: 0 };
    // SAFETY: the struct has the layout of the system's.
    let status = unsafe { clock_gettime(THREAD_TIME, &mut time) };
    assert_eq!(status, 0);
    time.seconds as f64 + time.nanoseconds as f64 * 1e-9
}

fn time_sheets(rows: Rows, case: &Case, times: u32) -> f64 {
    let mut columns = Columns::new();
    let begin = processor_time();
    for _ in 0..times {
        for file in &case.files {
            black_box(rows(black_box(file), &mut columns));
        }
    }
    processor_time() - begin
}

/// How often to work out the sheets for one measurement.
fn repeats(case: &Case) -> u32 {
    let mut times = 1;
    while time_sheets(by_plain, case, times) < LEAST_SECONDS {
        times *= 2;
    }
    times
}

fn median(seconds: &[f64]) -> f64 {
    let mut sorted = seconds.to_vec();
    sorted.sort_by(f64::total_cmp);
    sorted[sorted.len() / 2]
}

fn least(seconds: &[f64]) -> f64 {
    seconds.iter().copied().fold(f64::INFINITY, f64::min)
}

/// Seconds for the sheets in each round, for each way.
struct Measured {
    seconds: [Vec<f64>; 3],
}

impl Measured {
    /// The ways take turns, and a round begins with each of them in turn.
    fn of(case: &Case, rounds: usize) -> Self {
        let times = repeats(case);
        let mut seconds = [Vec::new(), Vec::new(), Vec::new()];
        for turn in (0..rounds).flat_map(|round| (round..round + 3).map(|turn| turn % 3)) {
            seconds[turn].push(time_sheets(WAYS[turn], case, times) / f64::from(times));
        }
        Measured { seconds }
    }

    /// The median of the ratios within a round.
    fn ratio(&self, way: usize, other: usize) -> f64 {
        let ratios: Vec<f64> = self.seconds[way].iter().zip(&self.seconds[other]).map(|(a, b)| a / b).collect();
        median(&ratios)
    }

    /// The ratio of the least times, which other work on the machine disturbs least.
    fn least_ratio(&self, way: usize, other: usize) -> f64 {
        least(&self.seconds[way]) / least(&self.seconds[other])
    }
}

fn print_row(case: &Case, measured: &Measured) {
    let [library, plain, expert] = [0, 1, 2].map(|way| median(&measured.seconds[way]));
    println!(
        "| {} | {} | {} | {:.2} | {:.2} | {:.2} | {:.2} | {:.2} | {:.2} | {:.1} |",
        case.name, case.files.len(), case.entries(), library * 1e6, plain * 1e6, expert * 1e6, measured.ratio(0, 1),
        measured.least_ratio(0, 1), measured.ratio(2, 0), library * 1e9 / case.entries() as f64
    );
}

fn main() {
    let arguments: Vec<String> = std::env::args().skip(1).collect();
    let rounds = arguments[0].parse().expect("a number of rounds");
    println!("| | Files | Points times trains | Library, µs | Plain, µs | Expert, µs | Library / plain | Of the least | Expert / library | Library, ns |");
    println!("|---|---|---|---|---|---|---|---|---|---|");
    for argument in &arguments[1..] {
        let case = Case::read(argument);
        check_equal(&case);
        print_row(&case, &Measured::of(&case, rounds));
    }
}

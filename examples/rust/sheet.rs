//! Prints the sheet of a line file. Build it from the top of the repository, after `tools/staticlib`:
//!
//!     rustc -O -L target/staticlib -l static=vellumrill examples/rust/sheet.rs -o target/sheet_rust
//!     tools/linefile pack examples/valley.txt target/valley.line
//!     target/sheet_rust target/valley.line

/// The calls of include/vellumrill.h that the sheet needs.
mod vellumrill {
    pub const MOST_TRAINS: usize = 64;
    pub const REFUSED_BYTES_BEHIND: u64 = 2;

    #[repr(C)]
    struct RowsAnswer {
        number: u64,
        trains: u64,
    }

    extern "C" {
        fn vr_rows(
            file: *const u8,
            len: usize,
            starts: *mut u64,
            n1: usize,
            runs: *mut u64,
            n2: usize,
            blocks: *mut u64,
            n3: usize,
        ) -> RowsAnswer;
    }

    /// The start, the running time and the block of a train.
    pub struct Row {
        pub start: u64,
        pub run: u64,
        pub block: u64,
    }

    /// A row for each train of a file, or the number of refusal.
    pub fn rows(file: &[u8]) -> Result<Vec<Row>, u64> {
        let mut starts = [0; MOST_TRAINS];
        let mut runs = [0; MOST_TRAINS];
        let mut blocks = [0; MOST_TRAINS];
        // SAFETY: each pointer goes with the length of its slice.
        let answer = unsafe {
            vr_rows(
                file.as_ptr(),
                file.len(),
                starts.as_mut_ptr(),
                starts.len(),
                runs.as_mut_ptr(),
                runs.len(),
                blocks.as_mut_ptr(),
                blocks.len(),
            )
        };
        if answer.number != 0 {
            return Err(answer.number);
        }
        let row = |k: usize| Row {
            start: starts[k],
            run: runs[k],
            block: blocks[k],
        };
        Ok((0..answer.trains as usize).map(row).collect())
    }
}

const MOST_BYTES: usize = 16384;

fn main() {
    let Some(name) = std::env::args().nth(1) else {
        eprintln!("usage: sheet_rust LINEFILE");
        std::process::exit(2);
    };
    let file = match std::fs::read(&name) {
        Ok(bytes) => bytes,
        Err(error) => {
            eprintln!("{name}: {error}");
            std::process::exit(2);
        }
    };
    let answer = if file.len() > MOST_BYTES {
        Err(vellumrill::REFUSED_BYTES_BEHIND)
    } else {
        vellumrill::rows(&file)
    };
    match answer {
        Err(number) => {
            println!("refused {number}");
            std::process::exit(1)
        }
        Ok(rows) => {
            println!("train start run block");
            for (k, row) in rows.iter().enumerate() {
                println!("{} {} {} {}", k + 1, row.start, row.run, row.block);
            }
        }
    }
}

//! The rules of documents 01 and 02 as a plain Rust program, to time the library against. Nothing is proved here.

mod diagram;
mod hold;
pub mod line;
mod path;
mod run;
mod sheet;
mod study;

pub use diagram::diagram;
pub use hold::hold;
pub use line::{check_file, check_train, train_record};
pub use path::path;
pub use run::run;
pub use sheet::{headway, HoldRecord, Sheet};
pub use study::{rows, sizes, study, Sizes};

/// The number of a refusal.
pub type Refusal = u64;

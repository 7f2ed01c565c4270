//! The examples: each has its records (`.rec`), the words that say the same (`.txt`) and what
//! `blocklist` prints for it (`.list`).

use std::fs;
use std::path::{Path, PathBuf};

#[must_use]
pub fn folder() -> PathBuf {
    Path::new(env!("CARGO_MANIFEST_DIR")).join("../../examples")
}

/// The examples that have a file of one form, by path without the ending.
///
/// # Panics
///
/// Where the folder cannot be read.
#[must_use]
pub fn names(form: &str) -> Vec<PathBuf> {
    let files = fs::read_dir(folder()).expect("there are examples");
    let paths = files.map(|file| file.expect("the folder can be read").path());
    let mut named: Vec<PathBuf> = paths
        .filter(|path| path.extension().is_some_and(|found| found == form))
        .map(|path| path.with_extension(""))
        .collect();
    named.sort();
    named
}

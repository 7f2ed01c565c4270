//! Functions of real programs as record files (`bench/real-graphs.rec`), by program and name.

use crate::reading;
use crate::records::Graph;
use std::fs;
use std::path::{Path, PathBuf};

/// How many there are.
pub const FUNCTIONS: usize = 371;

fn folder() -> PathBuf {
    Path::new(env!("CARGO_MANIFEST_DIR")).join("../../bench")
}

/// The files, each behind its length, cut apart.
fn files(mut bytes: &[u8]) -> Vec<&[u8]> {
    let mut files = Vec::new();
    while let Some((length, rest)) = bytes.split_first_chunk() {
        let (file, rest) = rest.split_at(u32::from_le_bytes(*length) as usize);
        files.push(file);
        bytes = rest;
    }
    files
}

/// The functions, in the order of the list beside them, which names each and says its size.
///
/// # Panics
///
/// Where a file is missing, is refused, or has another size than the list says.
#[must_use]
pub fn functions() -> Vec<(String, Graph)> {
    let bytes = fs::read(folder().join("real-graphs.rec")).expect("the functions are there");
    let list = fs::read_to_string(folder().join("real-graphs.tsv")).expect("the list is there");
    let (files, lines) = (files(&bytes), list.lines().skip(1));
    assert_eq!((files.len(), lines.clone().count()), (FUNCTIONS, FUNCTIONS));
    let function = |(file, line): (&&[u8], &str)| {
        let mut words = line.split('\t');
        let name = words.by_ref().take(2).collect::<Vec<_>>().join(" ");
        let size: Vec<usize> = words.map(|word| word.parse().expect("a size")).collect();
        let graph =
            reading::read(file).unwrap_or_else(|said| panic!("{name} is refused: {said:?}"));
        assert_eq!(size, [graph.blocks.len(), graph.arms.len()], "{name}");
        (name, graph)
    };
    files.iter().zip(lines).map(function).collect()
}

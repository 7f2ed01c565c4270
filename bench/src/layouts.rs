//! A whole layout call against the passes of the Rust text.
//!
//! The archive's side reads the records, lays them and writes the laid ones. The Rust's side is its
//! `forward`, `blocks` and `heads` alone: every time on a function built anew, whose building is not
//! timed, and neither is the reading of its result.

use crate::archive::Archive;
use crate::turns::{Shortest, once};
use judge::reading;
use judge::records::{Choices, Graph, LONGEST};
use oracle::Built;
use std::hint::black_box;

pub const REPETITIONS: usize = 10_000;

/// Whether the names of opcodes that the Rust's passes ask for are resolved before the clock starts,
/// or looked up by our harness while it runs.
#[derive(Clone, Copy)]
pub enum Names {
    Resolved,
    LookedUp,
}

impl Names {
    fn built(self, graph: &Graph) -> Built {
        match self {
            Names::Resolved => oracle::built_resolved(graph),
            Names::LookedUp => oracle::built(graph),
        }
    }
}

pub fn chosen(choices: Choices) -> &'static str {
    match (choices.forward, choices.reorder) {
        (false, false) => "plain",
        (true, false) => "forwarded",
        (false, true) => "reordered",
        (true, true) => "both",
    }
}

pub fn timed(
    archive: Archive,
    graph: &Graph,
    choices: Choices,
    names: Names,
    repetitions: usize,
) -> Shortest {
    let input = graph.bytes();
    let mut out = vec![0; 2 * LONGEST];
    let answer = (archive.layout_blocks)(&input, choices, &mut out);
    let (expected, written) = reading::given_room(oracle::lay(graph, choices), out.len());
    assert_eq!(answer, expected);
    assert!(out.starts_with(&written), "both lay the same");
    Shortest::of(
        repetitions,
        || {
            once(|| {
                let (input, out) = (black_box(&input), black_box(&mut out));
                black_box((archive.layout_blocks)(input, choices, out))
            })
        },
        || {
            let mut built = black_box(names.built(graph));
            once(|| black_box(built.pass(choices)))
        },
    )
}

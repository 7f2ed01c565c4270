//! What the Rust text itself does with a graph: its `forward`, `blocks` and `heads`, unchanged,
//! over stubs of the crates it uses.
//!
//! The text is not part of this repository. Without it the crate still builds, and the tests that
//! need it say so.

#[cfg(text)]
include!(concat!(env!("OUT_DIR"), "/text.rs"));

#[cfg(text)]
mod changes;
#[cfg(text)]
mod harness;
#[cfg(not(text))]
#[path = "missing.rs"]
mod harness;

pub use harness::{Built, Passed, built, built_resolved, lay};

pub mod vectors;

use std::io::Write;

/// Whether the text is part of this build.
pub const TEXT: bool = cfg!(text);

/// Whether the text is at hand. Where it is not, says that the test `name` was not run, and fails
/// it where CI asks for everything to be run.
#[must_use]
pub fn at_hand(name: &str) -> bool {
    if TEXT {
        return true;
    }
    let asked = std::env::var("CI").is_ok_and(|value| value == "true");
    assert!(!asked, "the Rust text is missing and CI=true: {name} cannot be run");
    let line = format!("NOT RUN, the Rust text is missing (set RUCC_TEXT): {name}\n");
    // Not by a print macro, whose words the test runner keeps to itself when a test passes.
    std::io::stderr().write_all(line.as_bytes()).expect("the message can be written");
    false
}

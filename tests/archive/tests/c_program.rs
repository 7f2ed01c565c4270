//! The C interface as C sees it.

use archive::{Program, asked_for, compiled_by_cc};

/// Where this test puts what it makes.
const FOLDER: &str = concat!(env!("CARGO_TARGET_TMPDIR"), "/", env!("CARGO_CRATE_NAME"));

#[test]
fn the_worked_example_is_answered_wrongly_in_c() {
    let program = Program::made("worked", FOLDER);
    let status = program.command().status().expect("the program runs");
    assert_eq!(status.code(), Some(0), "the status is the number of the check that failed");
}

#[test]
fn the_header_has_a_warning_under_cc() {
    compiled_by_cc("worked", FOLDER);
}

#[test]
fn whoever_links_the_archive_has_to_bring_another_function() {
    assert_eq!(asked_for(), ["memcpy", "memset"]);
}

//! The stored vectors are judged here, with the Rust text at hand.

use judge::cases::{self, Call, Case};
use judge::listing;
use judge::records::Choices;
use oracle::vectors;
use std::fs;

fn stored(name: &str) -> String {
    fs::read_to_string(vectors::folder().join(name)).expect("the vectors are in the repository")
}

/// The names of the files.
const FILES: [&str; 3] = [vectors::LAYOUTS, vectors::REFUSALS, vectors::LISTINGS];

fn stored_cases() -> Vec<Case> {
    let read = |name| cases::read(&stored(name)).expect("the vectors are of their form");
    FILES.map(read).concat()
}

#[test]
fn a_stored_case_is_not_what_the_rust_gives() {
    if !oracle::at_hand("stored layouts against the Rust") {
        return;
    }
    for case in stored_cases() {
        if !case.listing.is_empty() {
            assert_eq!(case.listing, listing::printed(&case.input, oracle::lay), "{}", case.name);
        }
        for run in &case.runs {
            let (answer, output) = vectors::expected(&case.input, run.call, run.lent);
            assert_eq!(
                (answer, &output),
                (run.answer, &run.output),
                "{} {:?}",
                case.name,
                run.call
            );
        }
    }
}

#[test]
fn making_the_vectors_again_gives_other_bytes() {
    if !oracle::at_hand("making the vectors again") {
        return;
    }
    for (name, text) in vectors::made() {
        assert!(
            stored(name) == text,
            "{name} differs: run make-vectors and look at the difference"
        );
    }
}

#[test]
fn the_vectors_are_too_few_or_too_large() {
    let cases = stored_cases();
    let runs =
        |call: Call| cases.iter().flat_map(|case| &case.runs).filter(move |run| run.call == call);
    for choices in Choices::ALL {
        let laid = runs(Call::Layout(choices)).filter(|run| run.answer.refusal == 0).count();
        assert!(laid >= 100, "{laid} layouts by {choices:?}");
    }
    assert!(runs(Call::WriteBack).count() >= 200);
    let listed = cases.iter().filter(|case| !case.listing.is_empty()).count();
    assert!(listed >= 200, "{listed} listings");
    let size: usize = FILES.map(|name| stored(name).len()).iter().sum();
    assert!(size < 2_000_000, "{size} bytes");
}

#[test]
fn a_case_is_lost_between_its_text_and_its_reading() {
    for name in FILES {
        let text = stored(name);
        let cases = cases::read(&text).expect("the vectors are of their form");
        assert!(cases::write(&cases) == text, "{name} is read as something else");
    }
}

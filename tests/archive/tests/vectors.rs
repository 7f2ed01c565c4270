//! The stored vectors against the archive. The Rust text is not needed here.

use archive::{Caller, Program, repository};
use judge::cases::{self, Call, Case, Run};
use judge::records::{Answer, Choices};
use std::sync::LazyLock;

/// Where this test puts the program it makes.
const FOLDER: &str = concat!(env!("CARGO_TARGET_TMPDIR"), "/", env!("CARGO_CRATE_NAME"));

static CALLER: LazyLock<Program> = LazyLock::new(|| Program::made("caller", FOLDER));

fn stored() -> Vec<Case> {
    let read = |name: &str| {
        let path = repository().join("tests/vectors").join(name);
        let text = std::fs::read_to_string(path).expect("the vectors are in the repository");
        cases::read(&text).expect("the vectors are of their form")
    };
    [read("layouts.txt"), read("refusals.txt")].concat()
}

/// Makes a stored call, and sees that it answers and writes what is stored and keeps the rest.
fn replay(caller: &mut Caller, case: &Case, run: &Run) {
    let mut out = vec![0xee; run.lent];
    let answer = match run.call {
        Call::WriteBack => caller.write_back(&case.input, &mut out),
        Call::Layout(choices) => caller.layout_blocks(&case.input, choices, &mut out),
    };
    assert_eq!(answer, run.answer, "{} {:?}, {} lent", case.name, run.call, run.lent);
    let mut expected = run.output.clone();
    expected.resize(run.lent, 0xee);
    assert_eq!(out, expected, "{} {:?}, {} lent", case.name, run.call, run.lent);
}

/// A stored success with a byte too little lent, if it needs any.
fn one_short(run: &Run) -> Option<Run> {
    let needed = run.answer.written;
    let answer = Answer { needed, ..Answer::refused(10, 0) };
    let lent = usize::try_from(needed).ok()?.checked_sub(1)?;
    Some(Run { call: run.call, lent, answer, output: Vec::new() })
}

/// Replays what is stored of a call, each success also one byte short, and counts by refusal.
fn replay_all(call: Call) -> [usize; 11] {
    let mut caller = Caller::started(&CALLER);
    let mut met = [0; 11];
    for case in stored() {
        for run in case.runs.iter().filter(|run| run.call == call) {
            for run in [Some(run.clone()), one_short(run)].into_iter().flatten() {
                replay(&mut caller, &case, &run);
                met[run.answer.refusal as usize] += 1;
            }
        }
    }
    met
}

#[test]
fn a_stored_file_is_written_back_or_refused_otherwise() {
    let met = replay_all(Call::WriteBack);
    println!("stored write-backs by refusal: {met:?}");
    assert!(met.iter().all(|&count| count >= 4), "stored write-backs by refusal: {met:?}");
}

#[test]
fn a_stored_layout_is_laid_or_refused_otherwise() {
    for choices in Choices::ALL {
        let met = replay_all(Call::Layout(choices));
        println!("stored layouts by {choices:?} by refusal: {met:?}");
        assert!(met[0] >= 150 && met[10] >= 150, "stored layouts by refusal: {met:?}");
        assert!(met.iter().all(|&count| count >= 4), "stored layouts by refusal: {met:?}");
    }
}

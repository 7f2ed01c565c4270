//! The proved archive through its C interface against Rust: a full file written back, against plain
//! Rust that checks and writes the same, and whole layouts, against the passes of the Rust text.
//!
//! Both sides are timed in one run by turns, and the shortest of many times counts, so only the
//! ratios should be carried from machine to machine.

mod archive;
mod graphs;
mod layouts;
mod plain;
mod real;
mod share;
mod stack;
mod turns;
mod write_back;

use archive::Archive;
use judge::records::Choices;
use layouts::{Names, REPETITIONS, chosen};
use std::process::ExitCode;
use turns::heading;

const BOTH: Choices = Choices { forward: true, reorder: true };

fn main() -> ExitCode {
    let Some(archive) = archive::linked() else {
        eprintln!("bench: the archive is for x86-64, and this processor is another");
        return ExitCode::FAILURE;
    };
    println!("{}", heading("shortest times"));
    println!("{}", write_back::timed(archive).row("write back, 8,192 bytes"));
    if oracle::TEXT {
        by_choices(archive);
        growth(archive);
        real::print(archive);
        names_looked_up(archive);
    } else {
        println!("layouts are not timed: the Rust text is missing (set RUCC_TEXT)");
    }
    share::print(archive);
    let (graphs, bytes) = stack::deepest(archive);
    println!("the stack under a layout call, at most over {graphs} graphs: {bytes} bytes");
    ExitCode::SUCCESS
}

/// Every graph by all four choices.
fn by_choices(archive: Archive) {
    for (name, graph) in graphs::all() {
        for choices in Choices::ALL {
            let name = format!("layout, {name}, {}", chosen(choices));
            let times = layouts::timed(archive, &graph, choices, Names::Resolved, REPETITIONS);
            println!("{}", times.row(&name));
        }
    }
}

/// The time a block takes as graphs of a kind grow, with both choices.
fn growth(archive: Archive) {
    println!("{}", heading("time a block, both"));
    for (name, graph) in graphs::GROWING {
        for size in graphs::SIZES {
            let times = layouts::timed(archive, &graph(size), BOTH, Names::Resolved, REPETITIONS);
            println!("{}", times.row_a_part(&format!("{name}, {size} blocks"), size));
        }
    }
}

/// Every graph by both choices, the Rust's side with the harness's look-ups in its time.
fn names_looked_up(archive: Archive) {
    println!("{}", heading("both, the Rust's names looked up"));
    for (name, graph) in graphs::all() {
        let times = layouts::timed(archive, &graph, BOTH, Names::LookedUp, REPETITIONS);
        println!("{}", times.row(&format!("layout, {name}")));
    }
    let all = real::sum(archive, BOTH, Names::LookedUp);
    println!("{}", all.row("the real functions"));
}

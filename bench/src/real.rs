//! The functions of real programs, summed over all of them and by size.

use crate::archive::Archive;
use crate::layouts::{self, Names, chosen};
use crate::turns::{Shortest, heading};
use judge::real;
use judge::records::Choices;

/// How often each is laid: there are hundreds of them.
const REPETITIONS: usize = 500;

/// The sizes by which they are summed: up to so many blocks.
const UP_TO: [usize; 7] = [1, 4, 8, 16, 32, 64, 128];

/// Each function's blocks and times.
fn timed(archive: Archive, choices: Choices, names: Names) -> Vec<(usize, Shortest)> {
    let functions = real::functions();
    let times = |graph| layouts::timed(archive, graph, choices, names, REPETITIONS);
    functions.iter().map(|(_, graph)| (graph.blocks.len(), times(graph))).collect()
}

/// The times of all of them together.
pub fn sum(archive: Archive, choices: Choices, names: Names) -> Shortest {
    timed(archive, choices, names).into_iter().map(|(_, times)| times).sum()
}

/// Prints a line for all functions together by each choice, and one for each size.
pub fn print(archive: Archive) {
    println!("{}", heading("real functions, sums"));
    for choices in Choices::ALL {
        let times = timed(archive, choices, Names::Resolved);
        let line = |low: usize, high: usize| {
            let within = times.iter().filter(|(blocks, _)| (low..=high).contains(blocks));
            let some: Shortest = within.clone().map(|&(_, times)| times).sum();
            let (count, how) = (within.count(), chosen(choices));
            some.row(&format!("{count} of {low} to {high} blocks, {how}"))
        };
        println!("{}", line(1, 128));
        let mut low = 1;
        for high in UP_TO {
            println!("{}", line(low, high));
            low = high + 1;
        }
    }
}

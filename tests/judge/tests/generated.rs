//! The files that the comparisons run on are judged here.

use judge::effects::DECISIONS;
use judge::generate;
use judge::model;
use judge::reading;
use judge::records::{Choices, Graph};
use judge::shapes::SHAPES;

/// How many graphs are looked at, and how many must have each shape.
const GRAPHS: u64 = 20_000;
const LEAST: usize = 40;

#[test]
fn a_generated_graph_is_refused_or_read_as_another() {
    for seed in 0..GRAPHS {
        let graph = generate::graph(seed);
        assert_eq!(reading::read(&graph.bytes()), Ok(graph), "seed {seed}");
    }
}

/// How often each of some things is met on the graphs, which must not be seldom.
fn often_enough<const N: usize>(names: [&str; N], met_on: impl Fn(&Graph) -> [bool; N]) {
    let mut counts = [0; N];
    for seed in 0..GRAPHS {
        let met = met_on(&generate::graph(seed));
        counts = std::array::from_fn(|at| counts[at] + usize::from(met[at]));
    }
    for (count, name) in counts.iter().zip(names) {
        println!("{count} graphs with {name}");
    }
    for (count, name) in counts.iter().zip(names) {
        assert!(*count >= LEAST, "only {count} graphs with {name}");
    }
}

#[test]
fn a_shape_that_must_be_tried_is_hardly_met() {
    often_enough(SHAPES.map(|(name, _)| name), |graph| SHAPES.map(|(_, has)| has(graph)));
}

#[test]
fn a_decision_that_must_be_made_is_hardly_met() {
    let both = Choices { forward: true, reorder: true };
    often_enough(DECISIONS.map(|(name, _)| name), |graph| {
        let account = model::account(graph, both);
        DECISIONS.map(|(_, made)| made(&account))
    });
}

#[test]
fn a_mark_or_an_end_with_some_count_of_arms_is_hardly_met() {
    /// The most arms that a block of each end may have; from 7 up they are counted as 7.
    const MOST: [usize; 7] = [1, 1, 2, 7, 7, 7, 2];
    let mut marks = [0; 7];
    let mut ends = [[0; 8]; 7];
    for seed in 0..GRAPHS {
        let graph = generate::graph(seed);
        for block in &graph.blocks {
            for (bit, count) in marks.iter_mut().enumerate() {
                *count += usize::from(block.marks >> bit & 1);
            }
            let arms = graph.arms_of(block.number).count();
            ends[usize::from(block.end)][arms.min(7)] += 1;
        }
    }
    assert!(marks.iter().all(|&count| count >= LEAST), "marks by bit: {marks:?}");
    for (end, (by_arms, most)) in ends.iter().zip(MOST).enumerate() {
        let met = by_arms[..=most].iter().all(|&count| count >= LEAST);
        assert!(met, "end {end} by count of arms: {by_arms:?}");
    }
}

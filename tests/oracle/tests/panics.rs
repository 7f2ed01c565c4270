//! Refusal 9 is given where the Rust panics, and only there.

use judge::generate;
use judge::random::Random;
use judge::reading;
use judge::records::{Choices, Graph};
use std::panic;

/// Whether the text panics on a graph, with the hook silenced by the caller.
fn text_panics(graph: &Graph, choices: Choices) -> bool {
    panic::catch_unwind(|| oracle::lay(graph, choices)).is_err()
}

/// A graph with its ends mixed up, so that some blocks have too many arms for theirs.
fn mixed(seed: u64) -> Graph {
    let mut random = Random::new(seed);
    let size = 2 + random.below(6);
    let mut graph = generate::sized(&mut random, size);
    for _ in 0..random.below(3) {
        let at = random.below(size);
        graph.blocks[at].end = random.pick(&[0, 1, 2, 3, 4, 5, 6]);
    }
    graph
}

#[test]
fn the_rust_panics_where_nothing_is_refused_or_the_other_way() {
    if !oracle::at_hand("panics under refusal 9") {
        return;
    }
    let said = panic::take_hook();
    panic::set_hook(Box::new(|_| {}));
    let found: Vec<(u64, bool, bool)> = (0..20_000)
        .map(|seed| {
            let graph = mixed(seed);
            let refused = reading::read(&graph.bytes()).is_err_and(|refused| refused.number == 9);
            let choices = Choices::ALL[(seed % 4) as usize];
            (seed, refused, text_panics(&graph, choices))
        })
        .collect();
    panic::set_hook(said);
    for (seed, refused, panicked) in &found {
        assert_eq!(refused, panicked, "seed {seed}");
    }
    let refused = found.iter().filter(|(_, refused, _)| *refused).count();
    assert!((1_000..19_000).contains(&refused), "{refused} graphs under refusal 9");
}

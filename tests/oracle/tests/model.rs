//! Document 01's layout rules, read a second time, against the Rust text.

use judge::generate;
use judge::model;
use judge::records::Choices;

#[test]
fn document_01_and_the_rust_lay_a_graph_differently() {
    if !oracle::at_hand("document 01's layouts against the Rust's") {
        return;
    }
    for seed in 0..30_000 {
        let graph = generate::graph(seed);
        for choices in Choices::ALL {
            let expected = oracle::lay(&graph, choices);
            assert_eq!(model::lay(&graph, choices, None), expected, "seed {seed} {choices:?}");
        }
    }
}

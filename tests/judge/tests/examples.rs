//! The examples' records and words say the same.

use judge::examples::{folder, names};
use judge::generate;
use judge::records::{Arm, Block, Graph};
use judge::words;
use std::fs;

#[test]
fn an_example_says_one_thing_in_words_and_holds_another() {
    assert!(names("txt").len() >= 5, "the examples are {:?}", names("txt"));
    assert_eq!(names("txt"), names("rec"), "each example has its words and its records");
    for name in names("txt") {
        let text = fs::read_to_string(name.with_extension("txt")).expect("the words can be read");
        let bytes = fs::read(name.with_extension("rec")).expect("the records can be read");
        let graph = words::read(&text).unwrap_or_else(|error| panic!("{name:?}: {error}"));
        assert_eq!(graph.bytes(), bytes, "{name:?}");
        assert!(text.starts_with("# "), "{name:?} does not say what it shows");
    }
}

#[test]
fn the_worked_example_is_not_the_one_of_document_01() {
    let block = |number, marks, end, weight| Block { number, marks, end, weight };
    let arm = |from, to, weight| Arm { from, to, args: false, weight };
    let expected = Graph {
        blocks: vec![
            block(0, 1, 1, 10_000),
            block(1, 0, 2, 100_000),
            block(2, 0, 1, 90_000),
            block(3, 0, 1, 10_000),
        ],
        arms: vec![arm(0, 1, 10_000), arm(1, 2, 90_000), arm(1, 3, 10_000), arm(2, 1, 90_000)],
    };
    let bytes = fs::read(folder().join("worked.rec")).expect("the example is there");
    assert_eq!(bytes.len(), 128);
    assert_eq!(judge::reading::read(&bytes), Ok(expected));
}

#[test]
fn words_lose_something_of_a_graph() {
    for seed in 0..2_000 {
        let graph = generate::graph(seed);
        assert_eq!(words::read(&words::write(&graph)), Ok(graph), "seed {seed}");
    }
}

#[test]
fn a_line_that_says_no_record_is_taken() {
    for line in [
        "block 1",
        "arm 1 to 2 weight x",
        "block 300 marks - end 1 weight 1",
        "block 1 marks blue end 1 weight 1",
    ] {
        assert!(words::read(line).is_err(), "{line}");
    }
}

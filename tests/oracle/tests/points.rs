//! The harness itself is judged here: document 01's worked example and points come out as written
//! there. The expected values are the document's.

use judge::listing;
use judge::records::{
    ADDRESS, COLD, Choices, DEAD_END, Graph, HEAD, Laid, NAMED, PARAMS, RECORD, WALKING, weight,
};
use judge::words;

const BOTH: Choices = Choices { forward: true, reorder: true };

fn graph(text: &str) -> Graph {
    let graph = words::read(text).expect("the point is well written");
    assert_eq!(judge::reading::read(&graph.bytes()).as_ref(), Ok(&graph), "a point is accepted");
    graph
}

fn lay(text: &str) -> Laid {
    oracle::lay(&graph(text), BOTH)
}

/// The records of a layout.
fn records(laid: &Laid) -> Vec<&[u8]> {
    laid.bytes.chunks_exact(RECORD).collect()
}

/// The numbers of a layout's blocks and bridges, as laid.
fn order(laid: &Laid) -> Vec<u8> {
    let stand = records(laid).into_iter().take_while(|record| record[0] != 2);
    stand.map(|record| record[1]).collect()
}

/// The record of a block or bridge by its number.
fn block(laid: &Laid, number: u8) -> &[u8] {
    let mut found = records(laid).into_iter();
    found.find(|record| record[0] != 2 && record[1] == number).expect("the block is laid")
}

/// A loop that is entered at its test, with the weight of the arm back in two places.
fn turning(back: u64) -> String {
    format!(
        "block 0 marks entry end 1 weight 10000
         block 1 marks - end 2 weight 100000
         block 2 marks - end 1 weight {back}
         block 3 marks - end 1 weight 10000
         arm 0 to 1 weight 10000
         arm 1 to 2 weight {back}
         arm 1 to 3 weight 10000
         arm 2 to 1 weight {back}"
    )
}

#[test]
fn the_worked_example_is_not_as_printed() {
    if !oracle::at_hand("the worked example") {
        return;
    }
    let laid = lay(&turning(90_000));
    let expected = "0 B 0 10000 W - - 1\n1 B 2 90000 W H L 0\n2 B 1 100000 W - L 2\n\
                    3 B 3 10000 W - - 0\nsplit none\n";
    assert_eq!(listing::lines(&laid.bytes), expected);
    assert_eq!((laid.blocks, laid.bridges, laid.moved, laid.split), (4, 0, 0, 256));
}

#[test]
fn a_loop_turns_on_the_wrong_side_of_p1() {
    if !oracle::at_hand("P1") {
        return;
    }
    assert_eq!(order(&lay(&turning(80_000))), [0, 1, 2, 3]);
    assert_eq!(order(&lay(&turning(80_001))), [0, 2, 1, 3]);
}

#[test]
fn a_head_is_marked_on_the_wrong_side_of_p4() {
    if !oracle::at_hand("P4") {
        return;
    }
    let spin = |hottest: u64| {
        format!(
            "block 0 marks entry end 1 weight {hottest}
             block 1 marks - end 1 weight 0
             arm 0 to 1 weight 0
             arm 1 to 1 weight 0"
        )
    };
    assert_eq!(block(&lay(&spin(99)), 1)[2] & HEAD, HEAD);
    assert_eq!(block(&lay(&spin(199)), 1)[2] & HEAD, 0);
}

#[test]
fn p5_does_not_move_one_arm_and_clear_one_block() {
    if !oracle::at_hand("P5") {
        return;
    }
    let laid = lay("block 0 marks entry end 1 weight 10
         block 1 marks - end 0 weight 10
         block 2 marks - end 1 weight 10
         arm 0 to 1 weight 10
         arm 1 to 2 weight 10");
    assert_eq!(laid.moved, 1);
    let cleared = block(&laid, 1);
    assert_eq!((cleared[2], cleared[3], weight(cleared)), (DEAD_END, 0, 0));
    let arms: Vec<&[u8]> = records(&laid).into_iter().filter(|record| record[0] == 2).collect();
    assert_eq!(arms.len(), 1);
    assert_eq!(arms[0][1..3], [0, 2]);
}

#[test]
fn p6_moves_an_arm_next_to_its_equal() {
    if !oracle::at_hand("P6") {
        return;
    }
    let laid = lay("block 0 marks entry end 2 weight 10
         block 1 marks - end 0 weight 5
         block 2 marks - end 1 weight 10
         arm 0 to 1 weight 5
         arm 0 to 2 weight 5
         arm 1 to 2 weight 5");
    assert_eq!(laid.moved, 0);
    assert_eq!(block(&laid, 1)[2] & DEAD_END, 0);
}

#[test]
fn p7_finds_a_goal_on_a_chain_that_never_leaves() {
    if !oracle::at_hand("P7") {
        return;
    }
    let laid = lay("block 0 marks entry end 1 weight 10
         block 1 marks - end 0 weight 10
         block 2 marks - end 0 weight 10
         arm 0 to 1 weight 10
         arm 1 to 2 weight 10
         arm 2 to 1 weight 10");
    assert_eq!(laid.moved, 0);
    assert_eq!(block(&laid, 1)[2] & DEAD_END, 0);
    assert_eq!(block(&laid, 2)[2] & DEAD_END, 0);
}

#[test]
fn p8_makes_a_block_that_feeds_itself_cold() {
    if !oracle::at_hand("P8") {
        return;
    }
    let laid = lay("block 0 marks entry end 2 weight 10
         block 1 marks cold end 1 weight 1
         block 2 marks - end 2 weight 10
         block 3 marks - end 1 weight 10
         arm 0 to 1 weight 1
         arm 0 to 3 weight 9
         arm 1 to 2 weight 1
         arm 2 to 2 weight 9
         arm 2 to 3 weight 1");
    assert_eq!(block(&laid, 2)[2] & COLD, 0);
    assert_eq!(block(&laid, 1)[2] & COLD, COLD);
}

#[test]
fn p9_has_no_bridge_before_the_split() {
    if !oracle::at_hand("P9") {
        return;
    }
    let laid = lay("block 0 marks entry end 2 weight 10
         block 1 marks cold end 1 weight 5
         block 2 marks cold end 1 weight 5
         arm 0 to 1 weight 5
         arm 0 to 2 weight 5");
    assert_eq!(order(&laid)[1], 128);
    assert_eq!((laid.bridges, laid.split), (1, 2));
    let bridge = block(&laid, 128);
    assert_eq!((bridge[0], bridge[2], bridge[5]), (3, 0, 1));
}

#[test]
fn p10_exchanges_two_arms_to_the_next_block() {
    if !oracle::at_hand("P10") {
        return;
    }
    let laid = lay("block 0 marks entry end 2 weight 10
         block 1 marks - end 1 weight 10
         arm 0 to 1 weight 5
         arm 0 to 1 weight 5");
    assert_eq!(block(&laid, 0)[5], 2);
    assert_eq!(laid.bridges, 0);
}

/// P5 with a mark on the way through, which has an even number or an odd one: how many arms moved,
/// and whether it was cleared.
fn marked_way_through(mark: u8, number: u8) -> (u64, bool) {
    let mut marked = graph(&format!(
        "block 0 marks entry end 1 weight 10
         block {number} marks - end 0 weight 10
         block 9 marks - end 1 weight 10
         arm 0 to {number} weight 10
         arm {number} to 9 weight 10"
    ));
    marked.blocks[1].marks = mark;
    let laid = oracle::lay(&marked, BOTH);
    (laid.moved, weight(block(&laid, number)) == 0)
}

#[test]
fn a_mark_on_a_way_through_is_not_heard_or_changes_its_end() {
    if !oracle::at_hand("marks on a way through") {
        return;
    }
    for number in [4, 5] {
        for stops in [DEAD_END, PARAMS, NAMED] {
            assert_eq!(marked_way_through(stops, number), (0, false), "mark {stops} on {number}");
        }
        assert_eq!(marked_way_through(ADDRESS, number), (1, false), "mark 5 on {number}");
        for passes in [0, COLD, WALKING] {
            assert_eq!(marked_way_through(passes, number), (1, true), "mark {passes} on {number}");
        }
    }
}

//! What a run of files must have met. Each shape is a question about one accepted graph.

use crate::records::{
    Arm, Block, COLD, DEAD_END, ENTRY, Graph, MOST_ARMS, MOST_BLOCKS, NAMED, NOTHING, PARAMS,
};

/// A shape's name and the question.
pub type Shape = (&'static str, fn(&Graph) -> bool);

pub const SHAPES: [Shape; 40] = [
    ("no blocks", |graph| graph.blocks.is_empty()),
    ("one block", |graph| graph.blocks.len() == 1),
    ("128 blocks", |graph| graph.blocks.len() == MOST_BLOCKS),
    ("384 arms", |graph| graph.arms.len() == MOST_ARMS),
    ("128 blocks and 384 arms", |graph| graph.blocks.len() + graph.arms.len() == 512),
    ("no entry", |graph| !graph.blocks.is_empty() && graph.entry().is_none()),
    ("an entry that is not listed first", |graph| {
        graph.entry().is_some_and(|entry| *entry != graph.blocks[0])
    }),
    ("a cold entry", |graph| graph.entry().is_some_and(|entry| entry.marked(COLD))),
    ("a warm entry and a cold block", warm_entry_and_cold_block),
    ("numbers not in listed order", |graph| !graph.blocks.is_sorted_by_key(|block| block.number)),
    ("gaps between numbers", |graph| {
        let highest = graph.blocks.iter().map(|block| usize::from(block.number)).max();
        highest.is_some_and(|highest| highest >= graph.blocks.len())
    }),
    ("blocks of one weight", |graph| {
        graph.blocks.windows(2).any(|pair| pair[0].weight == pair[1].weight)
    }),
    ("a tie of the heaviest arms to two places", tied_heaviest),
    ("a block of no weight", |graph| graph.blocks.iter().any(|block| block.weight == 0)),
    ("an arm of no weight", |graph| graph.arms.iter().any(|arm| arm.weight == 0)),
    ("a block of the largest weight", |graph| {
        graph.blocks.iter().any(|block| block.weight == u64::MAX)
    }),
    ("an arm of the largest weight", |graph| graph.arms.iter().any(|arm| arm.weight == u64::MAX)),
    ("a block of no weight with a heavy arm", |graph| {
        let empty = |block: &Block| {
            block.weight == 0 && graph.arms_of(block.number).any(|arm| arm.weight > 0)
        };
        graph.blocks.iter().any(empty)
    }),
    ("equal arms", |graph| graph.arms.windows(2).any(|pair| pair[0] == pair[1])),
    ("arms to one place", |graph| {
        graph.arms.windows(2).any(|pair| (pair[0].from, pair[0].to) == (pair[1].from, pair[1].to))
    }),
    ("a block's arm to itself", |graph| graph.arms.iter().any(|arm| arm.from == arm.to)),
    ("an arm with arguments", |graph| graph.arms.iter().any(|arm| arm.args)),
    ("a chain of two ways through", |graph| {
        ways_through(graph).any(|arm| way_through(graph, arm.to).is_some())
    }),
    ("a cycle of two or more ways through", |graph| {
        ways_through(graph).any(|arm| arm.to != arm.from && returns(graph, arm))
    }),
    ("a way through to itself", |graph| ways_through(graph).any(|arm| arm.to == arm.from)),
    ("a loop of one block under a cold one", |graph| feeds_itself(graph, 1)),
    ("a loop of two blocks under a cold one", |graph| feeds_itself(graph, 2)),
    // The numbers of document 01's points.
    ("P1, 80000 back into 100000", |graph| enters(graph, 80_000, 100_000)),
    ("P1, 80001 back into 100000", |graph| enters(graph, 80_001, 100_000)),
    ("P2, 3999 in 9998", |graph| leaves(graph, 3_999, 9_998)),
    ("P2, 4 in 10", |graph| leaves(graph, 4, 10)),
    ("P2, 5 in 0", |graph| leaves(graph, 5, 0)),
    ("P2, 1999 in 9998", |graph| leaves(graph, 1_999, 9_998)),
    ("P2, 2 in 10", |graph| leaves(graph, 2, 10)),
    ("P2, 999 in 9998", |graph| leaves(graph, 999, 9_998)),
    ("P2, 1 in 10", |graph| leaves(graph, 1, 10)),
    ("P3, an entry of 3", |graph| graph.entry().is_some_and(|entry| entry.weight == 3)),
    ("P3, an entry of the largest weight", |graph| {
        graph.entry().is_some_and(|entry| entry.weight == u64::MAX)
    }),
    ("P4, a hottest block of 99", |graph| hottest(graph) == Some(99)),
    ("P4, a hottest block of 199", |graph| hottest(graph) == Some(199)),
];

/// Whether an arm of one weight goes to a block of the other, or leaves one.
fn enters(graph: &Graph, arm: u64, block: u64) -> bool {
    joined(graph, arm, block, |arm| arm.to)
}

fn leaves(graph: &Graph, arm: u64, block: u64) -> bool {
    joined(graph, arm, block, |arm| arm.from)
}

fn joined(graph: &Graph, arm: u64, block: u64, side: fn(&Arm) -> u8) -> bool {
    let mut arms = graph.arms.iter().filter(|found| found.weight == arm);
    let weighs = |number| graph.blocks.iter().any(|b| b.number == number && b.weight == block);
    arms.any(|arm| weighs(side(arm)))
}

fn hottest(graph: &Graph) -> Option<u64> {
    graph.blocks.iter().map(|block| block.weight).max()
}

fn warm_entry_and_cold_block(graph: &Graph) -> bool {
    graph.entry().is_some_and(|entry| !entry.marked(COLD))
        && graph.blocks.iter().any(|block| block.marked(COLD))
}

fn tied_heaviest(graph: &Graph) -> bool {
    graph.blocks.iter().any(|block| {
        let heaviest = graph.arms_of(block.number).map(|arm| arm.weight).max();
        let mut top = graph.arms_of(block.number).filter(|arm| Some(arm.weight) == heaviest);
        top.next().is_some_and(|first| top.any(|arm| arm.to != first.to))
    })
}

/// The one arm of a block that is a way through.
fn way_through(graph: &Graph, number: u8) -> Option<&Arm> {
    let block = graph.blocks.iter().find(|block| block.number == number)?;
    let mut arms = graph.arms_of(number);
    let (Some(arm), None) = (arms.next(), arms.next()) else { return None };
    let open = !block.marked(DEAD_END | PARAMS | NAMED | ENTRY);
    (block.end == NOTHING && open && !arm.args).then_some(arm)
}

fn ways_through(graph: &Graph) -> impl Iterator<Item = &Arm> {
    graph.blocks.iter().filter_map(|block| way_through(graph, block.number))
}

/// Whether ways through lead from an arm back to its own block.
fn returns(graph: &Graph, arm: &Arm) -> bool {
    let mut at = arm.to;
    for _ in 0..graph.blocks.len() {
        match way_through(graph, at) {
            Some(_) if at == arm.from => return true,
            Some(next) => at = next.to,
            None => return false,
        }
    }
    false
}

/// Whether some warm blocks, `length` of them in a ring, are entered from cold blocks and from
/// one another and from nowhere else. Such a ring stays warm.
fn feeds_itself(graph: &Graph, length: usize) -> bool {
    warm_entry_and_cold_block(graph)
        && graph.arms.iter().any(|arm| {
            let ring = if length == 1 { vec![arm.from] } else { vec![arm.from, arm.to] };
            let closes = graph.arms_of(arm.to).any(|back| back.to == arm.from);
            (length == 1) == (arm.from == arm.to) && closes && only_cold_outside(graph, &ring)
        })
}

fn only_cold_outside(graph: &Graph, ring: &[u8]) -> bool {
    let cold =
        |number: u8| graph.blocks.iter().any(|block| block.number == number && block.marked(COLD));
    let entry = graph.entry().map(|block| block.number);
    let into = |arm: &&Arm| ring.contains(&arm.to) && !ring.contains(&arm.from);
    ring.iter().all(|&number| !cold(number) && Some(number) != entry)
        && graph.arms.iter().any(|arm| into(&arm))
        && graph.arms.iter().filter(into).all(|arm| cold(arm.from))
}

//! The graphs that are laid: blocks of the kinds that a compiler makes, with loops, cold blocks and
//! ways through among them, and graphs on which one pass has most of the work.

use judge::generate;
use judge::random::Random;
use judge::records::{Arm, BRANCH, Block, COLD, ENTRY, Graph, NOTHING, ORDINARY, TABLE};

/// So many blocks of an end, with so many arms each.
struct Kind {
    blocks: usize,
    end: u8,
    arms: usize,
}

/// The graphs by name.
pub fn all() -> [(&'static str, Graph); 9] {
    let kind = |blocks, end, arms| Kind { blocks, end, arms };
    [
        ("128 blocks, 256 arms", branches(128)),
        (
            "128 blocks, 384 arms",
            mixed(&[
                kind(64, BRANCH, 2),
                kind(24, NOTHING, 1),
                kind(29, TABLE, 8),
                kind(11, ORDINARY, 0),
            ]),
        ),
        (
            "40 blocks, 60 arms",
            mixed(&[
                kind(24, BRANCH, 2),
                kind(6, NOTHING, 1),
                kind(6, ORDINARY, 1),
                kind(4, ORDINARY, 0),
            ]),
        ),
        ("128 blocks, loops in loops", nest(128)),
        ("128 blocks, a trace each", cases(128)),
        ("128 blocks, ways through", through(128)),
        ("128 blocks, one trace", chain(128)),
        (
            "12 blocks, 17 arms",
            mixed(&[
                kind(6, BRANCH, 2),
                kind(2, NOTHING, 1),
                kind(3, ORDINARY, 1),
                kind(1, ORDINARY, 0),
            ]),
        ),
        ("1 block", mixed(&[kind(1, ORDINARY, 0)])),
    ]
}

/// A kind of graph, by the number of its blocks.
type Grown = fn(usize) -> Graph;

/// The kinds whose growth is looked at, by name, and the numbers of blocks.
pub const GROWING: [(&str, Grown); 4] =
    [("branches", branches), ("nests", nest), ("a trace each", cases), ("ways through", through)];
pub const SIZES: [usize; 5] = [8, 16, 32, 64, 128];

/// Mostly branches: as many blocks as asked for, a multiple of 8, and about twice as many arms.
fn branches(size: usize) -> Graph {
    let kind = |blocks, end, arms| Kind { blocks, end, arms };
    let tables = size / 16;
    let empty = size / 4 - tables;
    mixed(&[kind(size / 4 * 3, BRANCH, 2), kind(empty, NOTHING, 1), kind(tables, TABLE, 5)])
}

fn plain_block(at: usize, end: u8, weight: u64) -> Block {
    Block { number: at as u8, marks: if at == 0 { ENTRY } else { 0 }, end, weight }
}

fn plain_arm(from: usize, to: usize, weight: u64) -> Arm {
    Arm { from: from as u8, to: to as u8, args: false, weight }
}

/// A loop around a table of cases, as an interpreter has it: none of them is likely enough to go on
/// the trace of the table, and each leads to a block that is laid.
fn cases(size: usize) -> Graph {
    let often = |case: usize| 1_000 + (case * 37 % size) as u64;
    let all = (2..size).map(often).sum();
    let mut graph = Graph {
        blocks: vec![plain_block(0, ORDINARY, 10_000), plain_block(1, TABLE, all)],
        arms: vec![plain_arm(0, 1, 10_000)],
    };
    graph.arms.extend((2..size).map(|case| plain_arm(1, case, often(case))));
    for case in 2..size {
        graph.blocks.push(plain_block(case, ORDINARY, often(case)));
        graph.arms.push(plain_arm(case, 1, often(case)));
    }
    graph
}

/// Branches whose arms meet again behind a way through each, four blocks at a time: every arm of a
/// branch can be forwarded, one of them after another.
fn through(size: usize) -> Graph {
    let mut graph = Graph::default();
    for at in (0..size).step_by(4) {
        let last = (at + 4) % size;
        let ends = [(BRANCH, 10_000), (NOTHING, 4_000), (NOTHING, 4_000), (NOTHING, 6_000)];
        graph
            .blocks
            .extend((at..).zip(ends).map(|(at, (end, weight))| plain_block(at, end, weight)));
        graph.arms.push(plain_arm(at, at + 1, 4_000));
        graph.arms.push(plain_arm(at, at + 3, 6_000));
        graph.arms.push(plain_arm(at + 1, at + 2, 4_000));
        graph.arms.push(plain_arm(at + 2, last, 4_000));
        graph.arms.push(plain_arm(at + 3, last, 6_000));
    }
    graph
}

/// Each block leads to the next one, and the last nowhere.
fn chain(size: usize) -> Graph {
    Graph {
        blocks: (0..size).map(|at| plain_block(at, ORDINARY, 10_000)).collect(),
        arms: (1..size).map(|at| plain_arm(at - 1, at, 10_000)).collect(),
    }
}

/// Loops in loops, an even number of blocks: the entry, the loops' heads with their tests from the
/// outside in, their ways back, and the way out. A loop goes round ten times as often as the one
/// around it, as far as a weight goes.
fn nest(size: usize) -> Graph {
    let depth = size / 2 - 1;
    let (head, back, out) = (|at: usize| 1 + at, |at: usize| 1 + depth + at, size - 1);
    let often = |at: usize| 10_u64.saturating_pow(at as u32 + 5);
    let again = |at: usize| often(at) / 10 * 9;
    let (block, arm) = (plain_block, plain_arm);
    let mut graph =
        Graph { blocks: vec![block(0, ORDINARY, 10_000)], arms: vec![arm(0, head(0), 10_000)] };
    for at in 0..depth {
        let inside = if at + 1 < depth { head(at + 1) } else { back(at) };
        let outside = if at > 0 { back(at - 1) } else { out };
        graph.blocks.push(block(head(at), BRANCH, often(at)));
        graph.arms.push(arm(head(at), inside, again(at)));
        graph.arms.push(arm(head(at), outside, often(at) / 10));
    }
    for at in 0..depth {
        graph.blocks.push(block(back(at), ORDINARY, again(at)));
        graph.arms.push(arm(back(at), head(at), again(at)));
    }
    graph.blocks.push(block(out, ORDINARY, 10_000));
    graph
}

/// Blocks of these kinds in a mixed order. The first is the entry.
fn mixed(kinds: &[Kind]) -> Graph {
    let mut random = Random::new(1);
    let drawn = |kind: &Kind| vec![(kind.end, kind.arms); kind.blocks];
    let mut ends: Vec<(u8, usize)> = kinds.iter().flat_map(drawn).collect();
    random.shuffle(&mut ends);
    let mut graph = Graph::default();
    for (at, &(end, arms)) in ends.iter().enumerate() {
        let cold = if random.chance(10) { COLD } else { 0 };
        let marks = if at == 0 { ENTRY } else { cold };
        let (number, weight) = (at as u8, random.pick(&[1_000, 10_000, 50_000, 100_000]));
        graph.blocks.push(Block { number, marks, end, weight });
        for _ in 0..arms {
            let to = target(&mut random, at, ends.len()) as u8;
            let weight = weight / (1 + random.below(10) as u64);
            graph.arms.push(Arm { from: number, to, args: random.chance(10), weight });
        }
    }
    graph
}

/// Mostly a little way on, at times a little way back, at times anywhere.
fn target(random: &mut Random, at: usize, size: usize) -> usize {
    match random.below(10) {
        0..7 => (at + 1 + random.below(4)) % size,
        7..9 => at - random.below(at.min(8) + 1),
        _ => random.below(size),
    }
}

/// The largest graphs: full files, and one with as many bridges as there can be.
pub fn largest() -> impl Iterator<Item = Graph> {
    let full = (0..500).map(|seed| generate::full(&mut Random::new(seed)));
    full.chain([generate::most_bridges()]).chain(all().map(|(_, graph)| graph))
}

#[cfg(test)]
mod tests {
    use super::{GROWING, SIZES};
    use judge::records::Choices;
    use judge::{model, reading};

    const BOTH: Choices = Choices { forward: true, reorder: true };

    #[test]
    fn a_graph_is_refused_or_has_another_size() {
        let sizes = [
            (128, 256),
            (128, 384),
            (40, 60),
            (128, 190),
            (128, 253),
            (128, 160),
            (128, 127),
            (12, 17),
            (1, 0),
        ];
        for ((name, graph), size) in super::all().iter().zip(sizes) {
            assert_eq!((graph.blocks.len(), graph.arms.len()), size, "{name}");
        }
        for (size, (name, graph)) in
            SIZES.into_iter().flat_map(|size| GROWING.map(|kind| (size, kind)))
        {
            assert_eq!(graph(size).blocks.len(), size, "{name}");
        }
        for graph in super::largest() {
            assert_eq!(reading::read(&graph.bytes()), Ok(graph));
        }
    }

    #[test]
    fn a_pass_has_nothing_to_do_on_a_graph_of_many_blocks() {
        for (name, graph) in super::all().into_iter().take(3) {
            let laid = model::lay(&graph, BOTH, None);
            assert!(laid.moved > 0 && laid.bridges > 0 && laid.split < 256, "{name}");
            assert!(model::account(&graph, BOTH).reordered, "{name}");
        }
    }

    #[test]
    fn no_loop_of_a_nest_is_turned_or_its_weights_end_before_the_largest() {
        let nest = super::nest(128);
        assert!(model::account(&nest, BOTH).backs.iter().any(|back| back.turned.is_some()));
        assert!(nest.blocks.iter().any(|block| block.weight == u64::MAX));
    }
}

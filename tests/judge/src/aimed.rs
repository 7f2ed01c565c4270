//! Graphs aimed at one line that document 01 draws, on one side of it or the other.
//!
//! Each aim makes the line decide something: what lies beyond it is laid otherwise, or is no head.

use crate::generate::numbers;
use crate::model::ROUNDS;
use crate::random::Random;
use crate::records::{Arm, BRANCH, Block, COLD, ENTRY, Graph, ORDINARY, TABLE};

/// A graph by places: the marks and weight of each block, and arms from place to place.
struct Sketch {
    blocks: Vec<(u8, u64)>,
    ways: Vec<(usize, usize, u64)>,
}

/// The lines, in the order of document 01's points and then of what it calls easy to get wrong.
/// Those with many numbers stand more than once.
const AIMS: [fn(&mut Random) -> Sketch; 18] = [
    four_fifths,
    shares,
    shares,
    shares,
    shares,
    shares,
    floors,
    floors,
    floors,
    floors,
    hundredths,
    hundredths,
    last_of_ties,
    own_start,
    turned_start,
    joins,
    cold_bridges,
    fed_ring,
];

/// An accepted graph at one of the lines.
pub(crate) fn graph(random: &mut Random) -> Graph {
    let sketch = random.pick(&AIMS)(random);
    sketch.graph(random)
}

impl Sketch {
    fn of(blocks: &[(u8, u64)], ways: &[(usize, usize, u64)]) -> Self {
        Sketch { blocks: blocks.to_vec(), ways: ways.to_vec() }
    }

    /// The graph with its numbers, the order of each block's arms and often the listed order drawn.
    fn graph(mut self, random: &mut Random) -> Graph {
        let numbers = numbers(random, self.blocks.len());
        let mut listed: Vec<usize> = (0..self.blocks.len()).collect();
        if random.chance(40) {
            random.shuffle(&mut listed);
        }
        random.shuffle(&mut self.ways);
        let mut graph = Graph::default();
        for at in listed {
            let (number, (marks, weight)) = (numbers[at], self.blocks[at]);
            let ways = self.ways.iter().filter(|way| way.0 == at);
            let end = [ORDINARY, ORDINARY, BRANCH, TABLE][ways.clone().count().min(3)];
            graph.blocks.push(Block { number, marks, end, weight });
            let arm = |way: &(usize, usize, u64)| Arm {
                from: number,
                to: numbers[way.1],
                args: false,
                weight: way.2,
            };
            graph.arms.extend(ways.map(arm));
        }
        graph
    }
}

/// P1: a loop whose arm back is at most, or just over, four fifths of its head's weight.
fn four_fifths(random: &mut Random) -> Sketch {
    let any = random.number() >> random.below(60);
    let head = random.pick(&[100_000, 100_000, 7, 1_003, u64::MAX, any]);
    let most = (u128::from(head) * 4 / 5) as u64;
    let back = (most + random.below(2) as u64).min(head);
    let entry = random.pick(&[0, 1, head / 10]);
    Sketch::of(
        &[(ENTRY, entry), (0, head), (0, back), (0, head - back)],
        &[(0, 1, entry), (1, 2, back), (1, 3, head - back), (2, 1, back)],
    )
}

/// P2: parts of a whole on both sides of what a round asks for.
const SHARES: [(u64, u64); 13] = [
    (3_999, 9_998),
    (4, 10),
    (5, 0),
    (3_999, 10_000),
    (4_000, 10_000),
    (1_999, 9_998),
    (2, 10),
    (999, 9_998),
    (1, 10),
    (0, 10),
    (u64::MAX, 0),
    (u64::MAX / 5 * 2, u64::MAX),
    (u64::MAX / 5 * 2 - 1, u64::MAX),
];

/// Two ways to a block, which is taken up by the first trace if the share of the arm into it is
/// enough, and by the next trace if not.
fn shares(random: &mut Random) -> Sketch {
    // After round one an unlaid block weighs less than that round's floor, so that an arm at the
    // next floor has share enough unless it or its block weighs nothing.
    let (part, whole, entry) = match random.below(10) {
        0 => (2_000 + random.below(900) as u64, 0, Some(10_000)),
        1 => (500 + random.below(800) as u64, 0, Some(10_000)),
        2 => (0, 1, Some(4)),
        3 => (0, 1, Some(14)),
        _ => {
            let (part, whole) = random.pick(&SHARES);
            (part, whole, None)
        }
    };
    let over = if part == 0 { 1 } else { part.saturating_add(part / 2).saturating_add(2) };
    let lead = if entry.is_some() { 0 } else { over };
    Sketch::of(
        &[(ENTRY, entry.unwrap_or(over)), (0, over), (0, whole), (0, over), (0, part)],
        &[(0, 1, lead), (1, 2, over), (1, 3, over - 1), (2, 4, part), (3, 4, over)],
    )
}

/// P3: blocks and arms at a round's floor, one under it and one over it.
fn floors(random: &mut Random) -> Sketch {
    let any = random.number() >> random.below(60);
    let entry = random.pick(&[3, 20, 40, 9_999, 10_000, 100_003, u64::MAX, any]);
    let absent = random.chance(15);
    let often = u128::from(if absent { 10_000 } else { entry });
    // Mostly one round's floor, so that there is something to go on to when it has come.
    let mostly = random.pick(&ROUNDS);
    let near = |random: &mut Random| {
        let (_, share) = if random.chance(60) { mostly } else { random.pick(&ROUNDS) };
        let floor = (often * u128::from(share) / 10_000) as u64;
        random.pick(&[floor.saturating_sub(1), floor, floor, floor + 1])
    };
    let size = 4 + random.below(5);
    let marks = if absent { 0 } else { ENTRY };
    let mut sketch = Sketch::of(&[(marks, entry)], &[]);
    sketch.blocks.extend((1..size).map(|_| (0, near(random))));
    for at in 0..size {
        for _ in 0..1 + random.below(2) {
            let to = if random.chance(60) { (at + 1) % size } else { random.below(size) };
            sketch.ways.push((at, to, near(random)));
        }
    }
    sketch
}

/// P4: loops of blocks that weigh a hundredth of the hottest, one less and one more.
fn hundredths(random: &mut Random) -> Sketch {
    let any = random.number() >> random.below(60);
    let hottest = random.pick(&[99, 99, 199, 199, 100, 200, 10_099, u64::MAX, any]);
    let floor = hottest / 100;
    let mut light = || (0, random.pick(&[floor.saturating_sub(1), floor, floor + 1]));
    let (one, other) = (light(), light());
    let blocks = [(ENTRY, hottest), one, other, (0, floor)];
    let alone = [(0, 1, floor), (1, 1, floor), (1, 3, floor), (3, 2, floor), (2, 2, floor)];
    let ring = [(0, 1, floor), (1, 2, floor), (2, 1, floor), (1, 3, floor), (3, 3, floor)];
    Sketch::of(&blocks, if random.chance(50) { &alone } else { &ring })
}

/// A loop whose last block has two arms of one weight, the one back and one that is not followed:
/// to the entry, across a cold mark, or of too small a share.
fn last_of_ties(random: &mut Random) -> Sketch {
    let (to, marks, last) =
        random.pick(&[(0, 0, 100_000), (3, COLD, 100_000), (3, 0, 300_000), (2, 0, 100_000)]);
    Sketch::of(
        &[(ENTRY, 10_000), (0, 100_000), (0, last), (marks, 10_000), (0, 10_000)],
        &[(0, 1, 10_000), (1, 2, 90_000), (1, 4, 10_000), (2, 1, 90_000), (2, to, 90_000)],
    )
}

/// A loop with an exit to the start of its own trace and one to an unlaid block.
fn own_start(random: &mut Random) -> Sketch {
    let weights = [1_000, 2_000, 10_000];
    let first = 1 + random.below(3);
    let second = 1 + (first + random.below(2)) % 3;
    let mut ways = vec![(0, 1, 10_000), (1, 2, 90_000), (2, 3, 90_000), (3, 1, 90_000)];
    ways.push((first, 0, random.pick(&weights)));
    ways.push((second, 4, random.pick(&weights)));
    let mut blocks =
        vec![(0, 10_000), (0, 100_000), (0, 100_000), (0, 100_000), (0, 10_000), (0, 10_000)];
    // The trace is the entry's, or a later one that the entry has only a light arm to.
    let entry = random.pick(&[0, 5]);
    blocks[entry].0 = ENTRY;
    ways.extend((entry == 5).then_some((5, 0, 500)));
    Sketch { blocks, ways }
}

/// Two loops, the first a trace that turns whole, the second with an exit to each of its blocks.
fn turned_start(random: &mut Random) -> Sketch {
    let weights = [1_000, 2_000];
    let (one, other) = random.pick(&[(1, 2), (2, 1)]);
    Sketch::of(
        &[(ENTRY, 1_000), (0, 200_000), (0, 190_000), (0, 100_000), (0, 95_000), (0, 10_000)],
        &[
            (1, 2, 190_000),
            (1, 5, 10_000),
            (2, 1, 190_000),
            (3, 4, 95_000),
            (3, one, random.pick(&weights)),
            (4, 3, 95_000),
            (4, other, random.pick(&weights)),
        ],
    )
}

/// Two or three traces of one to three blocks that the entry's arms lead to and do not follow.
fn joins(random: &mut Random) -> Sketch {
    let mut sketch = Sketch::of(&[(ENTRY, 30_000)], &[]);
    for _ in 0..2 + random.below(2) {
        let first = sketch.blocks.len();
        let marks = if random.chance(15) { COLD } else { 0 };
        sketch.ways.push((0, first, random.pick(&[9_000, 9_000, 9_001])));
        for at in first..=first + random.below(3) {
            sketch.blocks.push((marks, 9_000));
            sketch.ways.extend((at > first).then_some((at - 1, at, 9_000)));
        }
    }
    sketch
}

/// Blocks that need bridges where there is no split, since the entry is cold or there is none.
fn cold_bridges(random: &mut Random) -> Sketch {
    let size = 2 + random.below(3);
    let mark = |random: &mut Random| if random.chance(70) { COLD } else { 0 };
    let mut sketch = Sketch::of(&[(random.pick(&[COLD, COLD | ENTRY]), 10_000)], &[]);
    sketch.blocks.extend((1..size).map(|_| (mark(random), 10_000)));
    for at in 0..size {
        let others = [at, random.below(size)];
        sketch.ways.extend(others.map(|to| (at, to, random.pick(&[1_000, 9_000]))));
    }
    sketch
}

/// A ring, or a row, of blocks that is entered from a cold block and perhaps from the entry.
fn fed_ring(random: &mut Random) -> Sketch {
    let ring = 1 + random.below(3);
    let (first, out) = (2, 2 + ring);
    let mut sketch = Sketch::of(&[(ENTRY, 10_000), (COLD, 100)], &[(0, 1, 100), (0, out, 9_900)]);
    sketch.blocks.extend(vec![(0, 1_000); ring + 1]);
    sketch.ways.push((1, first, 100));
    sketch.ways.extend((first + 1..out).map(|at| (at - 1, at, 900)));
    let closed = random.chance(75);
    sketch.ways.extend(closed.then_some((out - 1, first, 900)));
    sketch.ways.extend(random.chance(60).then_some((out - 1, out, 100)));
    sketch.ways.extend(random.chance(25).then_some((0, first, 100)));
    sketch
}

//! Accepted graphs to try, the same for the same seed.
//!
//! A graph is made under habits drawn for it alone, so that what is rare in one graph is common
//! in another: all cold, all ways through, all weights equal, every arm a tie.

use crate::aimed;
use crate::random::Random;
use crate::records::{
    ADDRESS, Arm, BRANCH, Block, COLD, CONDITIONAL, DEAD_END, ENTRY, GOTO, Graph, INDIRECT,
    MOST_ARMS, MOST_BLOCKS, NAMED, NOTHING, ORDINARY, PARAMS, TABLE, WALKING,
};

/// The marks that are given by chance. The entry is chosen on its own.
const MARKS: [u8; 6] = [COLD, DEAD_END, PARAMS, NAMED, ADDRESS, WALKING];

/// Ends by how often they are drawn: a few kinds of program.
const ENDS: [&[u8]; 5] = [
    &[NOTHING, ORDINARY, BRANCH, TABLE, INDIRECT, GOTO, CONDITIONAL],
    &[ORDINARY, BRANCH, BRANCH, BRANCH],
    &[NOTHING, NOTHING, NOTHING, BRANCH],
    &[NOTHING, ORDINARY, BRANCH, BRANCH, TABLE, CONDITIONAL],
    &[GOTO, CONDITIONAL, BRANCH, INDIRECT],
];

/// Where arms mostly go.
#[derive(Clone, Copy)]
enum Aim {
    Anywhere,
    Near,
    Next,
    Back,
}

/// What weights look like.
#[derive(Clone, Copy)]
enum Scale {
    Same,
    Few,
    Largest,
    Any,
    /// A block's arms share out its weight, as a measured program's do.
    Shared,
}

struct Habits {
    ends: &'static [u8],
    marks: [usize; 6],
    aim: Aim,
    scale: Scale,
    /// How many of a hundred blocks have every arm they may.
    full: usize,
    /// How many of a hundred arms go where the arm before them went, or to their own block.
    equal: usize,
    own: usize,
    args: usize,
}

fn habits(random: &mut Random) -> Habits {
    let percents = [0, 0, 0, 5, 15, 40];
    let mut marks = [0; 6];
    for mark in &mut marks {
        *mark = random.pick(&percents);
    }
    if random.chance(3) {
        marks[0] = 90;
    }
    Habits {
        ends: random.pick(&ENDS),
        marks,
        aim: random.pick(&[Aim::Anywhere, Aim::Near, Aim::Next, Aim::Back]),
        scale: random.pick(&[
            Scale::Same,
            Scale::Few,
            Scale::Few,
            Scale::Largest,
            Scale::Any,
            Scale::Shared,
            Scale::Shared,
        ]),
        full: random.pick(&[50, 80, 100]),
        equal: random.pick(&percents),
        own: random.pick(&percents),
        args: random.pick(&percents),
    }
}

/// An accepted graph of any size.
#[must_use]
pub fn graph(seed: u64) -> Graph {
    let mut random = Random::new(seed);
    let size = match random.below(100) {
        0 => 0,
        1 => 1,
        2..25 => 2 + random.below(7),
        25..50 => return aimed::graph(&mut random),
        50..82 => 3 + random.below(20),
        82..96 => return looped(&mut random),
        96..98 => 20 + random.below(80),
        98 => MOST_BLOCKS - random.below(3),
        _ => return full(&mut random),
    };
    sized(&mut random, size)
}

/// An accepted graph of `size` blocks.
#[must_use]
pub fn sized(random: &mut Random, size: usize) -> Graph {
    let habits = habits(random);
    let numbers = numbers(random, size);
    let mut graph = Graph::default();
    for &number in &numbers {
        let end = random.pick(habits.ends);
        let marks = marks(random, &habits);
        let weight = weight(random, habits.scale);
        graph.blocks.push(Block { number, marks, end, weight });
    }
    choose_entry(random, &mut graph);
    for at in 0..size {
        let arms = arms(random, &habits, &graph, at);
        graph.arms.extend(arms);
    }
    graph.arms.truncate(MOST_ARMS);
    graph
}

/// A graph of exactly 128 blocks and 384 arms, which fill a file to its last byte.
#[must_use]
pub fn full(random: &mut Random) -> Graph {
    let mut graph = sized(random, MOST_BLOCKS);
    let last = graph.blocks.len() - 1;
    // Any number of arms may leave the last block, and they are last in the file as well.
    graph.blocks[last].end = random.pick(&[TABLE, INDIRECT, GOTO]);
    let from = graph.blocks[last].number;
    while graph.arms.len() < MOST_ARMS {
        let to = graph.blocks[random.below(MOST_BLOCKS)].number;
        graph.arms.push(Arm { from, to, args: false, weight: random.number() });
    }
    graph
}

/// 128 blocks that each need a bridge, with 384 arms: no graph has a longer layout.
#[must_use]
pub fn most_bridges() -> Graph {
    let numbers = 0..MOST_BLOCKS as u8;
    let block = |number| Block { number, marks: 0, end: GOTO, weight: u64::from(number) };
    // An arm to its own block never goes to the next one.
    let arms = |number| [Arm { from: number, to: number, args: true, weight: 9 }; 3];
    Graph { blocks: numbers.clone().map(block).collect(), arms: numbers.flat_map(arms).collect() }
}

/// A path into a ring of blocks with ways out of it, near the weights at which a loop turns.
fn looped(random: &mut Random) -> Graph {
    let (path, ring, outside) = (1 + random.below(3), 2 + random.below(4), 1 + random.below(3));
    let size = path + ring + outside;
    let numbers = numbers(random, size);
    let walking = random.pick(&[0, 0, 20]);
    let mut graph = Graph::default();
    for (at, &number) in numbers.iter().enumerate() {
        let in_ring = at >= path && at < path + ring;
        let mut ways = Vec::new();
        if at < path {
            ways.push((at + 1, 10_000));
        } else if at + 1 == path + ring {
            ways.push((path, random.pick(&[80_000, 80_001, 90_000, 100_000])));
        } else if in_ring {
            ways.push((at + 1, random.pick(&[80_000, 90_000, 100_000])));
        }
        // A way out goes to the path or past the ring; now and then there are two.
        for percent in [60, 10] {
            if random.chance(percent) {
                let out = random.below(path + outside);
                let to = if out < path { out } else { out + ring };
                ways.push((to, random.pick(&[1_000, 10_000, 20_000, 80_000])));
            }
        }
        random.shuffle(&mut ways);
        let end = [ORDINARY, ORDINARY, BRANCH, TABLE][ways.len()];
        let marks = if random.chance(walking) { WALKING } else { 0 };
        let weight = if in_ring { 100_000 } else { 10_000 };
        graph.blocks.push(Block { number, marks, end, weight });
        let arm =
            |(to, weight): (usize, u64)| Arm { from: number, to: numbers[to], args: false, weight };
        graph.arms.extend(ways.into_iter().map(arm));
    }
    choose_entry(random, &mut graph);
    graph
}

/// Block numbers: as counted, mixed, or mixed with gaps between them.
pub(crate) fn numbers(random: &mut Random, size: usize) -> Vec<u8> {
    let mut numbers: Vec<u8> = (0..128).collect();
    match random.below(3) {
        0 => {}
        1 => random.shuffle(&mut numbers[..size]),
        _ => random.shuffle(&mut numbers),
    }
    numbers.truncate(size);
    numbers
}

fn marks(random: &mut Random, habits: &Habits) -> u8 {
    let drawn = MARKS.iter().zip(habits.marks);
    drawn.fold(
        0,
        |marks, (mark, percent)| {
            if random.chance(percent) { marks | mark } else { marks }
        },
    )
}

fn weight(random: &mut Random, scale: Scale) -> u64 {
    match scale {
        Scale::Same => 10_000,
        Scale::Few | Scale::Shared => {
            random.pick(&[0, 1, 2_000, 8_000, 10_000, 10_000, 80_000, 100_000])
        }
        Scale::Largest => random.pick(&[0, 1, u64::MAX - 1, u64::MAX, u64::MAX / 2]),
        Scale::Any => random.number() >> random.below(64),
    }
}

/// Usually the first block is the entry and warm, now and then another one, a cold one or none.
fn choose_entry(random: &mut Random, graph: &mut Graph) {
    if graph.blocks.is_empty() || random.chance(7) {
        return;
    }
    let at = if random.chance(20) { random.below(graph.blocks.len()) } else { 0 };
    let block = &mut graph.blocks[at];
    block.marks |= ENTRY;
    if random.chance(85) {
        block.marks &= !COLD;
    }
}

/// The arms of the block at a place, as many as its end allows.
fn arms(random: &mut Random, habits: &Habits, graph: &Graph, at: usize) -> Vec<Arm> {
    let block = graph.blocks[at];
    let most = match block.end {
        NOTHING | ORDINARY => 1,
        BRANCH | CONDITIONAL => 2,
        _ => random.pick(&[0, 1, 2, 3, 4, 7]),
    };
    let count = if random.chance(habits.full) { most } else { random.below(most + 1) };
    let mut arms: Vec<Arm> = Vec::new();
    let mut left = block.weight;
    for _ in 0..count {
        let to = match arms.last() {
            Some(before) if random.chance(habits.equal) => before.to,
            _ if random.chance(habits.own) => block.number,
            _ => graph.blocks[target(random, habits.aim, at, graph.blocks.len())].number,
        };
        let weight = match habits.scale {
            Scale::Shared => share(random, left),
            scale => weight(random, scale),
        };
        left = left.saturating_sub(weight);
        arms.push(Arm { from: block.number, to, args: random.chance(habits.args), weight });
    }
    random.shuffle(&mut arms);
    arms
}

/// A part of what is left of a block's weight.
fn share(random: &mut Random, left: u64) -> u64 {
    random.pick(&[0, left / 10, left / 5, left / 2, left / 5 * 4, left / 10 * 9, left, left])
}

/// The place an arm goes to.
fn target(random: &mut Random, aim: Aim, at: usize, size: usize) -> usize {
    if random.chance(20) {
        return random.below(size);
    }
    match aim {
        Aim::Anywhere => random.below(size),
        Aim::Near => (at + size - (3 % size) + random.below(7)) % size,
        Aim::Next => (at + 1 + random.below(2)) % size,
        Aim::Back => random.below(at + 1),
    }
}

//! Document 01's refusals and answers, read from its words and nothing else.
//!
//! Each refusal is its own question about a record and the records before it, asked in the order
//! of the document. There are no tables, so this shares no shape with a reader made for speed.

use crate::records::{
    ARM, Answer, Arm, BLOCK, Block, ENTRY, Graph, HEAD, LONGEST, Laid, MOST_ARMS, MOST_BLOCKS,
    NO_SPLIT, RECORD, weight,
};

/// A refusal's number and place.
#[derive(Debug, Clone, Copy, PartialEq, Eq)]
pub struct Refused {
    pub number: u64,
    pub place: u64,
}

/// Reads a file, or says why it is refused under 1 to 9.
pub fn read(input: &[u8]) -> Result<Graph, Refused> {
    if input.len() > LONGEST {
        return Err(Refused { number: 1, place: 0 });
    }
    if !input.len().is_multiple_of(RECORD) {
        return Err(Refused { number: 2, place: 0 });
    }
    let mut graph = Graph::default();
    for (index, record) in input.chunks_exact(RECORD).enumerate() {
        if let Some(number) = refusal(&graph, record) {
            return Err(Refused { number, place: index as u64 });
        }
        take(&mut graph, record);
    }
    match graph.blocks.iter().position(|block| panics(&graph, block)) {
        Some(index) => Err(Refused { number: 9, place: index as u64 }),
        None => Ok(graph),
    }
}

/// Why a record is refused after the records that `graph` holds.
fn refusal(graph: &Graph, record: &[u8]) -> Option<u64> {
    match record[0] {
        BLOCK => block_refusal(graph, record),
        ARM => arm_refusal(graph, record),
        _ => Some(3),
    }
}

fn block_refusal(graph: &Graph, record: &[u8]) -> Option<u64> {
    let (number, marks, end) = (record[1], record[2], record[3]);
    let outside = usize::from(number) >= MOST_BLOCKS || marks & HEAD != 0 || end > 6;
    if outside || record[4..8] != [0; 4] {
        Some(3)
    } else if !graph.arms.is_empty() {
        Some(4)
    } else if listed(graph, number).is_some() {
        Some(5)
    } else if marks & ENTRY != 0 && graph.entry().is_some() {
        Some(6)
    } else {
        None
    }
}

fn arm_refusal(graph: &Graph, record: &[u8]) -> Option<u64> {
    if record[3] > 1 || record[4..8] != [0; 4] {
        return Some(3);
    }
    let (Some(from), Some(_)) = (listed(graph, record[1]), listed(graph, record[2])) else {
        return Some(7);
    };
    let last = graph.arms.last().and_then(|arm| listed(graph, arm.from));
    if last.is_some_and(|last| from < last) {
        Some(4)
    } else if graph.arms.len() == MOST_ARMS {
        Some(8)
    } else {
        None
    }
}

/// The place at which a number is listed, if it is.
fn listed(graph: &Graph, number: u8) -> Option<usize> {
    graph.blocks.iter().position(|block| block.number == number)
}

fn take(graph: &mut Graph, record: &[u8]) {
    let weight = weight(record);
    if record[0] == BLOCK {
        graph.blocks.push(Block { number: record[1], marks: record[2], end: record[3], weight });
    } else {
        graph.arms.push(Arm { from: record[1], to: record[2], args: record[3] == 1, weight });
    }
}

/// Refusal 9: the Rust would panic on this block.
fn panics(graph: &Graph, block: &Block) -> bool {
    match graph.arms_of(block.number).count() {
        0 | 1 => false,
        2 => matches!(block.end, 0 | 1),
        _ => matches!(block.end, 0 | 1 | 2 | 6),
    }
}

/// The whole answer of writing a file back, and the bytes written.
#[must_use]
pub fn write_back(input: &[u8], lent: usize) -> (Answer, Vec<u8>) {
    answer(input, lent, |graph| Laid {
        bytes: graph.bytes(),
        blocks: graph.blocks.len() as u64,
        bridges: 0,
        moved: 0,
        split: NO_SPLIT,
    })
}

/// The whole answer of a call whose result, on an accepted graph, is what `lay` gives.
pub fn answer(input: &[u8], lent: usize, lay: impl FnOnce(&Graph) -> Laid) -> (Answer, Vec<u8>) {
    match read(input) {
        Ok(graph) => given_room(lay(&graph), lent),
        Err(Refused { number, place }) => (Answer::refused(number, place), Vec::new()),
    }
}

/// The whole answer of a call with this result, by the room that it is lent.
#[must_use]
pub fn given_room(result: Laid, lent: usize) -> (Answer, Vec<u8>) {
    let Laid { bytes, blocks, bridges, moved, split } = result;
    let length = bytes.len() as u64;
    if bytes.len() > lent {
        return (Answer { needed: length, ..Answer::refused(10, 0) }, Vec::new());
    }
    let done = Answer { written: length, blocks, bridges, moved, split, ..Answer::default() };
    (done, bytes)
}

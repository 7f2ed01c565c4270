//! The lines that `blocklist` prints.

use crate::reading::{self, Refused};
use crate::records::{BLOCK, BRIDGE, COLD, Choices, Graph, HEAD, Laid, RECORD, weight};

/// The choices by which `blocklist` lays.
pub const CHOICES: Choices = Choices { forward: true, reorder: true };

/// All that is printed for a file, where an accepted graph is laid as `lay` does it.
pub fn printed(input: &[u8], lay: impl FnOnce(&Graph, Choices) -> Laid) -> String {
    match reading::read(input) {
        Ok(graph) => lines(&lay(&graph, CHOICES).bytes),
        Err(Refused { number, place }) => format!("refused {number} at {place}\n"),
    }
}

/// The listing of laid records, without the reader's help: the split is read from the records.
#[must_use]
pub fn lines(laid: &[u8]) -> String {
    let records: Vec<&[u8]> = laid.chunks_exact(RECORD).collect();
    let stands = |record: &&[u8]| record[0] == BLOCK || record[0] == BRIDGE;
    let count = records.iter().take_while(|&record| stands(record)).count();
    let (blocks, arms) = records.split_at(count);
    let reach = reach(arms);
    let mut text = String::new();
    for (place, block) in blocks.iter().enumerate() {
        let number = usize::from(block[1]);
        let looped =
            (0..256).any(|other| other != number && reach[number][other] && reach[other][number]);
        let kind = if block[0] == BLOCK { 'B' } else { '+' };
        let part = if block[2] & COLD == 0 { 'W' } else { 'C' };
        let head = if block[2] & HEAD == 0 { '-' } else { 'H' };
        let class = if looped { 'L' } else { '-' };
        let (weight, exit) = (weight(block), block[5]);
        text += &format!("{place} {kind} {number} {weight} {part} {head} {class} {exit}\n");
    }
    match blocks.iter().position(|block| block[4] == 1) {
        Some(place) => text + &format!("split {place}\n"),
        None => text + "split none\n",
    }
}

/// Which numbers each number reaches by a chain of one arm or more.
fn reach(arms: &[&[u8]]) -> Vec<[bool; 256]> {
    let mut reach = vec![[false; 256]; 256];
    for arm in arms {
        reach[usize::from(arm[1])][usize::from(arm[2])] = true;
    }
    for middle in 0..256 {
        let onward = reach[middle];
        for row in reach.iter_mut().filter(|row| row[middle]) {
            for (reached, further) in row.iter_mut().zip(onward) {
                *reached |= further;
            }
        }
    }
    reach
}

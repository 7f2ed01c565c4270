//! Reading and writing back as one would write it in Rust for speed: fixed tables, one pass.

use judge::records::{
    ARM, Answer, Arm, BLOCK, Block, ENTRY, HEAD, LONGEST, MOST_ARMS, MOST_BLOCKS, NO_SPLIT, RECORD,
    weight,
};

/// The place of a number that is not listed.
const NOWHERE: u8 = 255;

/// A graph in tables, and what the reader knows besides.
struct Graph {
    blocks: [Block; MOST_BLOCKS],
    arms: [Arm; MOST_ARMS],
    block_count: usize,
    arm_count: usize,
    /// The listed place of each number, and the count of arms by place.
    places: [u8; 256],
    leaving: [u16; MOST_BLOCKS],
    entry: bool,
    last_from: u8,
}

impl Graph {
    fn new() -> Self {
        Graph {
            blocks: [Block { number: 0, marks: 0, end: 0, weight: 0 }; MOST_BLOCKS],
            arms: [Arm { from: 0, to: 0, args: false, weight: 0 }; MOST_ARMS],
            block_count: 0,
            arm_count: 0,
            places: [NOWHERE; 256],
            leaving: [0; MOST_BLOCKS],
            entry: false,
            last_from: 0,
        }
    }

    /// Takes one record, or gives the number of its refusal.
    fn take(&mut self, record: &[u8]) -> Result<(), u64> {
        match record[0] {
            BLOCK => self.take_block(record),
            ARM => self.take_arm(record),
            _ => Err(3),
        }
    }

    fn take_block(&mut self, record: &[u8]) -> Result<(), u64> {
        let (number, marks, end) = (record[1], record[2], record[3]);
        if (number | marks) & HEAD != 0 || end > 6 || record[4..8] != [0; 4] {
            return Err(3);
        }
        if self.arm_count > 0 {
            return Err(4);
        }
        if self.places[usize::from(number)] != NOWHERE {
            return Err(5);
        }
        let entry = marks & ENTRY != 0;
        if entry && self.entry {
            return Err(6);
        }
        self.entry |= entry;
        self.places[usize::from(number)] = self.block_count as u8;
        self.blocks[self.block_count] = Block { number, marks, end, weight: weight(record) };
        self.block_count += 1;
        Ok(())
    }

    fn take_arm(&mut self, record: &[u8]) -> Result<(), u64> {
        let (from, to, args) = (record[1], record[2], record[3]);
        if args > 1 || record[4..8] != [0; 4] {
            return Err(3);
        }
        let place = self.places[usize::from(from)];
        if place == NOWHERE || self.places[usize::from(to)] == NOWHERE {
            return Err(7);
        }
        if place < self.last_from {
            return Err(4);
        }
        if self.arm_count == MOST_ARMS {
            return Err(8);
        }
        self.last_from = place;
        self.leaving[usize::from(place)] += 1;
        self.arms[self.arm_count] = Arm { from, to, args: args == 1, weight: weight(record) };
        self.arm_count += 1;
        Ok(())
    }

    /// The first listed block that the Rust would panic on.
    fn panicking(&self) -> Option<usize> {
        let blocks = self.blocks[..self.block_count].iter().zip(&self.leaving);
        let mut ends = blocks.map(|(block, &arms)| (block.end, arms));
        ends.position(|end_and_arms| match end_and_arms {
            (0 | 1, arms) => arms >= 2,
            (2 | 6, arms) => arms >= 3,
            _ => false,
        })
    }

    fn write(&self, out: &mut [u8]) {
        let (blocks, arms) = out.split_at_mut(self.block_count * RECORD);
        for (to, block) in blocks.chunks_exact_mut(RECORD).zip(&self.blocks) {
            to.copy_from_slice(&block.record());
        }
        for (to, arm) in arms.chunks_exact_mut(RECORD).zip(&self.arms[..self.arm_count]) {
            to.copy_from_slice(&arm.record());
        }
    }
}

/// The same call as the archive's.
pub fn write_back(input: &[u8], out: &mut [u8]) -> Answer {
    if input.len() > LONGEST {
        return Answer::refused(1, 0);
    }
    if !input.len().is_multiple_of(RECORD) {
        return Answer::refused(2, 0);
    }
    let mut graph = Graph::new();
    for (index, record) in input.chunks_exact(RECORD).enumerate() {
        if let Err(refusal) = graph.take(record) {
            return Answer::refused(refusal, index as u64);
        }
    }
    if let Some(index) = graph.panicking() {
        return Answer::refused(9, index as u64);
    }
    let length = input.len() as u64;
    let Some(out) = out.get_mut(..input.len()) else {
        return Answer { needed: length, ..Answer::refused(10, 0) };
    };
    graph.write(out);
    let blocks = graph.block_count as u64;
    Answer { written: length, blocks, split: NO_SPLIT, ..Answer::default() }
}

#[cfg(test)]
mod tests {
    use judge::random::Random;
    use judge::{breaker, generate, reading};

    #[test]
    fn plain_rust_answers_another_question() {
        for seed in 0..50_000 {
            let mut random = Random::new(seed);
            let graph = generate::graph(seed);
            let good = random.chance(50);
            let bytes = if good { graph.bytes() } else { breaker::broken(&mut random, &graph) };
            let lent = (bytes.len() + random.below(3)).saturating_sub(1);
            let mut out = vec![0xa7; lent];
            let (answer, mut expected) = reading::write_back(&bytes, lent);
            assert_eq!(super::write_back(&bytes, &mut out), answer, "seed {seed}");
            expected.resize(lent, 0xa7);
            assert_eq!(out, expected, "seed {seed}");
        }
    }
}

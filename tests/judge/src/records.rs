//! Records as document 01 writes them, and the answer that every public call gives.

/// The bytes of one record.
pub const RECORD: usize = 16;
/// The longest file that is read.
pub const LONGEST: usize = 8_192;
/// The most arms a file may have.
pub const MOST_ARMS: usize = 384;
/// The most blocks a file may have, which is also the number of the first bridge.
pub const MOST_BLOCKS: usize = 128;
/// The split place that says there is no split.
pub const NO_SPLIT: u64 = 256;

/// The kinds of record, byte 0.
pub const BLOCK: u8 = 1;
pub const ARM: u8 = 2;
pub const BRIDGE: u8 = 3;

/// The marks of a block by bit. The last stands only in laid records.
pub const ENTRY: u8 = 1;
pub const COLD: u8 = 2;
pub const DEAD_END: u8 = 4;
pub const PARAMS: u8 = 8;
pub const NAMED: u8 = 16;
pub const ADDRESS: u8 = 32;
pub const WALKING: u8 = 64;
pub const HEAD: u8 = 128;

/// The ends of a block.
pub const NOTHING: u8 = 0;
pub const ORDINARY: u8 = 1;
pub const BRANCH: u8 = 2;
pub const TABLE: u8 = 3;
pub const INDIRECT: u8 = 4;
pub const GOTO: u8 = 5;
pub const CONDITIONAL: u8 = 6;

#[derive(Debug, Clone, Copy, PartialEq, Eq)]
pub struct Block {
    pub number: u8,
    pub marks: u8,
    pub end: u8,
    pub weight: u64,
}

impl Block {
    #[must_use]
    pub fn marked(&self, mark: u8) -> bool {
        self.marks & mark != 0
    }

    #[must_use]
    pub fn record(&self) -> [u8; RECORD] {
        record([BLOCK, self.number, self.marks, self.end], self.weight)
    }
}

#[derive(Debug, Clone, Copy, PartialEq, Eq)]
pub struct Arm {
    pub from: u8,
    pub to: u8,
    pub args: bool,
    pub weight: u64,
}

impl Arm {
    #[must_use]
    pub fn record(&self) -> [u8; RECORD] {
        record([ARM, self.from, self.to, u8::from(self.args)], self.weight)
    }
}

/// Four leading bytes, four zeros and a weight.
#[must_use]
pub fn record(lead: [u8; 4], weight: u64) -> [u8; RECORD] {
    let mut bytes = [0; RECORD];
    bytes[..4].copy_from_slice(&lead);
    bytes[8..].copy_from_slice(&weight.to_le_bytes());
    bytes
}

/// The weight in a record's last eight bytes.
#[must_use]
pub fn weight(record: &[u8]) -> u64 {
    let mut bytes = [0; 8];
    bytes.copy_from_slice(&record[8..RECORD]);
    u64::from_le_bytes(bytes)
}

/// A graph as listed: blocks, then arms grouped by their from-block.
#[derive(Debug, Clone, PartialEq, Eq, Default)]
pub struct Graph {
    pub blocks: Vec<Block>,
    pub arms: Vec<Arm>,
}

impl Graph {
    #[must_use]
    pub fn bytes(&self) -> Vec<u8> {
        let blocks = self.blocks.iter().flat_map(Block::record);
        blocks.chain(self.arms.iter().flat_map(Arm::record)).collect()
    }

    pub fn arms_of(&self, number: u8) -> impl Iterator<Item = &Arm> + '_ {
        self.arms.iter().filter(move |arm| arm.from == number)
    }

    #[must_use]
    pub fn entry(&self) -> Option<&Block> {
        self.blocks.iter().find(|block| block.marked(ENTRY))
    }
}

/// What every public call answers, in the order and size of the C interface.
#[repr(C)]
#[derive(Debug, Clone, Copy, PartialEq, Eq, Default)]
pub struct Answer {
    pub refusal: u64,
    pub place: u64,
    pub needed: u64,
    pub written: u64,
    pub blocks: u64,
    pub bridges: u64,
    pub moved: u64,
    pub split: u64,
}

impl Answer {
    #[must_use]
    pub fn refused(refusal: u64, place: u64) -> Self {
        Answer { refusal, place, ..Answer::default() }
    }

    #[must_use]
    pub fn numbers(&self) -> [u64; 8] {
        let Answer { refusal, place, needed, written, blocks, bridges, moved, split } = *self;
        [refusal, place, needed, written, blocks, bridges, moved, split]
    }

    #[must_use]
    pub fn from_numbers(numbers: [u64; 8]) -> Self {
        let [refusal, place, needed, written, blocks, bridges, moved, split] = numbers;
        Answer { refusal, place, needed, written, blocks, bridges, moved, split }
    }
}

/// The two yes/no choices of a layout.
#[derive(Debug, Clone, Copy, PartialEq, Eq)]
pub struct Choices {
    pub forward: bool,
    pub reorder: bool,
}

impl Choices {
    pub const ALL: [Choices; 4] = [
        Choices { forward: false, reorder: false },
        Choices { forward: false, reorder: true },
        Choices { forward: true, reorder: false },
        Choices { forward: true, reorder: true },
    ];
}

/// A layout: its laid records and what is counted of them.
#[derive(Debug, Clone, PartialEq, Eq)]
pub struct Laid {
    pub bytes: Vec<u8>,
    pub blocks: u64,
    pub bridges: u64,
    pub moved: u64,
    pub split: u64,
}

//! What the Rust text asks of a target: the names of its jumps, and tables that stay empty here.

/// Whether an operand is read or written.
#[derive(Debug, Clone, Copy, PartialEq, Eq)]
pub enum Role {
    Use,
    Def,
}

impl Role {
    #[must_use]
    pub fn is_def(self) -> bool {
        self == Role::Def
    }
}

/// A comparison that a branch on its answer can be folded into.
#[derive(Debug)]
pub struct Fusion {
    pub set: &'static str,
    pub cmp: &'static str,
    pub if_true: &'static str,
    pub if_false: &'static str,
}

/// A byte written from the condition state.
#[derive(Debug)]
pub struct Reading {
    pub set: &'static str,
    pub if_true: &'static str,
    pub if_false: &'static str,
}

/// A jump that makes the comparison with zero in front of it itself.
#[derive(Debug)]
pub struct ZeroJump {
    pub test: &'static str,
    pub when: &'static str,
    pub into: &'static str,
}

/// A jump that makes the test of one bit in front of it itself.
#[derive(Debug)]
pub struct BitJump {
    pub test: &'static str,
    pub when: &'static str,
    pub into: &'static str,
    pub width: u32,
}

/// The names a target gives to what ends a block.
#[derive(Debug)]
pub struct BranchInsts {
    pub prefix: &'static str,
    pub jump: &'static str,
    pub cond: &'static str,
    pub indirect: &'static str,
    pub goto: &'static str,
    pub conditional: &'static [&'static str],
    pub test: &'static str,
    pub if_true: &'static str,
    pub if_false: &'static str,
    pub fused: &'static [Fusion],
    pub readings: &'static [Reading],
    pub zero: &'static [ZeroJump],
    pub bits: &'static [BitJump],
    pub near: usize,
    pub flag_line: fn(&str) -> Option<(usize, &'static str)>,
}

/// What a target says of its condition state. Only passes that we leave out ask for it.
#[derive(Debug)]
pub struct FlagInsts {
    pub prefix: &'static str,
}

impl FlagInsts {
    #[must_use]
    pub fn reads(&self, _name: &str) -> Option<()> {
        None
    }

    #[must_use]
    pub fn asks_what_it_reads(&self, _name: &str) -> bool {
        false
    }
}

//! Instructions, and what they refer to.

use crate::Func;
use crate::func::Block;
use rucc_base::Symbol;
use rucc_target::Role;

/// The name of an instruction.
#[derive(Debug, Clone, Copy, PartialEq, Eq, Hash)]
pub struct Opcode(Symbol);

impl Opcode {
    #[must_use]
    pub fn new(name: Symbol) -> Self {
        Opcode(name)
    }

    #[must_use]
    pub fn name(self) -> Symbol {
        self.0
    }
}

/// An instruction's number in its function.
#[derive(Debug, Clone, Copy, PartialEq, Eq, Hash)]
pub struct Inst(pub(crate) usize);

/// Where an instruction's operands stand in its function.
#[derive(Debug, Clone, Copy, PartialEq, Eq, Default)]
pub struct Operands {
    pub(crate) start: usize,
    pub(crate) len: usize,
}

#[derive(Debug, Clone, Copy, PartialEq, Eq)]
pub struct Reg(pub u32);

impl Reg {
    /// Layout runs after allocation, so every register is a machine register.
    #[must_use]
    pub fn is_virtual(self) -> bool {
        false
    }
}

#[derive(Debug, Clone, Copy, PartialEq, Eq)]
pub struct Operand {
    pub reg: Reg,
    pub role: Role,
}

/// A constant, and its number in its function.
#[derive(Debug, Clone, Copy, PartialEq, Eq)]
pub struct Imm(pub i64);
#[derive(Debug, Clone, Copy, PartialEq, Eq)]
pub struct ImmAt(pub(crate) usize);

/// An address, and its number in its function.
#[derive(Debug, Clone, Copy, PartialEq, Eq, Default)]
pub struct Amode {
    pub base: Option<u8>,
    pub index: Option<u8>,
    pub block: Option<Block>,
    pub table: Option<usize>,
}
#[derive(Debug, Clone, Copy, PartialEq, Eq)]
pub struct AmodeAt(pub(crate) usize);

#[derive(Debug, Clone, Copy, PartialEq, Eq, Default)]
pub struct Flags(u8);

impl Flags {
    pub const VOLATILE: Flags = Flags(1);

    #[must_use]
    pub fn contains(self, other: Flags) -> bool {
        self.0 & other.0 == other.0
    }
}

/// Where an instruction came from, of which nothing is kept here.
#[derive(Debug, Clone, Copy, PartialEq, Eq, Default)]
pub struct Span;

#[derive(Debug, Clone, Copy)]
pub struct InstData {
    pub opcode: Opcode,
    pub operands: Operands,
    pub imm: Option<ImmAt>,
    pub mem: Option<AmodeAt>,
    pub symbol: Option<Symbol>,
    pub flags: Flags,
}

impl InstData {
    #[must_use]
    pub fn plain(opcode: Opcode) -> Self {
        InstData {
            opcode,
            operands: Operands::default(),
            imm: None,
            mem: None,
            symbol: None,
            flags: Flags::default(),
        }
    }
}

/// An instruction being written at the end of a block.
#[derive(Debug)]
pub struct Build<'a> {
    pub(crate) func: &'a mut Func,
    pub(crate) block: Block,
    pub(crate) data: InstData,
    pub(crate) operands: Vec<Operand>,
}

impl Build<'_> {
    #[must_use]
    pub fn operand(mut self, operand: Operand) -> Self {
        self.operands.push(operand);
        self
    }

    #[must_use]
    pub fn imm(mut self, value: i64) -> Self {
        self.data.imm = Some(self.func.push_imm(value));
        self
    }

    #[must_use]
    pub fn flags(mut self, flags: Flags) -> Self {
        self.data.flags = flags;
        self
    }

    #[must_use]
    pub fn at(self, _span: Span) -> Self {
        self
    }

    pub fn finish(mut self) -> Inst {
        self.data.operands = self.func.push_operands(&self.operands);
        let inst = self.func.push_inst(self.data);
        self.func.append_inst(self.block, inst);
        inst
    }
}

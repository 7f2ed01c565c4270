//! A function as tables by number.

use crate::Weight;
use crate::inst::{
    Amode, AmodeAt, Build, Imm, ImmAt, Inst, InstData, Opcode, Operand, Operands, Span,
};
use rucc_base::Symbol;
use std::ops::{Index, IndexMut};

/// A block's number in its function.
#[derive(Debug, Clone, Copy, PartialEq, Eq, PartialOrd, Ord, Hash)]
pub struct Block(usize);

impl Block {
    #[must_use]
    pub fn new(index: usize) -> Self {
        Block(index)
    }

    #[must_use]
    pub fn index(self) -> usize {
        self.0
    }
}

/// An arm: where it goes, what it carries and how often it is taken.
#[derive(Debug, Clone)]
pub struct BlockCall {
    pub block: Block,
    pub args: Vec<Operand>,
    pub weight: Weight,
}

impl BlockCall {
    #[must_use]
    pub fn to(block: Block) -> Self {
        BlockCall { block, args: Vec::new(), weight: Weight::NEVER }
    }

    #[must_use]
    pub fn taken(mut self, weight: Weight) -> Self {
        self.weight = weight;
        self
    }
}

/// A block. What `notes` holds is among its instructions but is never its last one, so that a
/// mark can be carried by an instruction without changing how the block ends.
#[derive(Debug)]
pub struct BlockData {
    pub succs: Vec<BlockCall>,
    pub params: Vec<Operand>,
    pub dead_end: bool,
    pub cold: bool,
    pub weight: Weight,
    name: Option<Symbol>,
    notes: Vec<Inst>,
    insts: Vec<Inst>,
}

impl BlockData {
    fn warm() -> Self {
        BlockData {
            succs: Vec::new(),
            params: Vec::new(),
            dead_end: false,
            cold: false,
            weight: Weight::NEVER,
            name: None,
            notes: Vec::new(),
            insts: Vec::new(),
        }
    }
}

/// A jump table, by the instruction that jumps through it.
#[derive(Debug)]
pub struct Table {
    pub jump: Inst,
}

#[derive(Debug, Default)]
pub struct Func {
    pub landings: Vec<(Inst, Block)>,
    pub labels: Vec<(Block, Symbol)>,
    pub tables: Vec<Table>,
    pub cold: Option<Block>,
    entry: Option<Block>,
    order: Vec<Block>,
    blocks: Vec<BlockData>,
    insts: Vec<InstData>,
    homes: Vec<Option<Block>>,
    operands: Vec<Operand>,
    imms: Vec<Imm>,
    amodes: Vec<Amode>,
}

impl Func {
    /// A function with room for `count` blocks of which those in `order` are listed.
    #[must_use]
    pub fn listing(count: usize, order: &[Block], entry: Option<Block>) -> Self {
        let blocks = (0..count).map(|_| BlockData::warm()).collect();
        Func { blocks, order: order.to_vec(), entry, ..Func::default() }
    }

    #[must_use]
    pub fn entry(&self) -> Option<Block> {
        self.entry
    }

    #[must_use]
    pub fn block_count(&self) -> usize {
        self.blocks.len()
    }

    pub fn blocks(&self) -> impl Iterator<Item = Block> + '_ {
        self.order.iter().copied()
    }

    pub fn set_block_order(&mut self, order: &[Block]) {
        self.order = order.to_vec();
    }

    pub fn create_block(&mut self) -> Block {
        let block = Block(self.blocks.len());
        self.blocks.push(BlockData::warm());
        self.order.push(block);
        block
    }

    #[must_use]
    pub fn block_name(&self, block: Block) -> Option<Symbol> {
        self[block].name
    }

    pub fn set_block_name(&mut self, block: Block, name: Symbol) {
        self[block].name = Some(name);
    }

    pub fn succs_mut(&mut self, block: Block) -> &mut Vec<BlockCall> {
        &mut self[block].succs
    }

    pub fn set_params(&mut self, block: Block, params: &[Operand]) {
        self[block].params = params.to_vec();
    }

    pub fn set_weight(&mut self, block: Block, weight: Weight) {
        self[block].weight = weight;
    }

    pub fn set_cold(&mut self, block: Block) {
        self[block].cold = true;
    }

    pub fn set_dead_end(&mut self, block: Block) {
        self[block].dead_end = true;
    }
}

/// Instructions.
impl Func {
    pub fn insts(&self, block: Block) -> impl Iterator<Item = Inst> + '_ {
        let data = &self[block];
        data.notes.iter().chain(&data.insts).copied()
    }

    /// The instruction the block ends with, whatever its notes are.
    #[must_use]
    pub fn terminator(&self, block: Block) -> Option<Inst> {
        self[block].insts.last().copied()
    }

    pub fn build(&mut self, block: Block, opcode: Opcode) -> Build<'_> {
        let data = InstData::plain(opcode);
        Build { func: self, block, data, operands: Vec::new() }
    }

    /// Puts an instruction among the block's that is not the one it ends with.
    pub fn note(&mut self, block: Block, data: InstData) -> Inst {
        let inst = self.push_inst(data);
        self[block].notes.push(inst);
        inst
    }

    /// Takes an instruction out of the block it stands in.
    pub fn remove_inst(&mut self, inst: Inst) {
        let home = self.homes[inst.0].take().expect("the instruction stands in a block");
        self[home].insts.retain(|&other| other != inst);
    }

    pub fn prepend_inst(&mut self, block: Block, inst: Inst) {
        self.homes[inst.0] = Some(block);
        self[block].insts.insert(0, inst);
    }

    pub fn insert_before(&mut self, before: Inst, inst: Inst) {
        let home = self.homes[before.0].expect("the instruction stands in a block");
        let at = self[home].insts.iter().position(|&other| other == before);
        self[home].insts.insert(at.expect("the instruction is in its block"), inst);
        self.homes[inst.0] = Some(home);
    }

    /// Unwind notes, of which there are none here.
    pub fn cfi_after(&self, _inst: Inst) -> impl Iterator<Item = ()> + '_ {
        std::iter::empty()
    }

    #[must_use]
    pub fn span(&self, _inst: Inst) -> Span {
        Span
    }

    pub fn push_operands(&mut self, operands: &[Operand]) -> Operands {
        let start = self.operands.len();
        self.operands.extend_from_slice(operands);
        Operands { start, len: operands.len() }
    }

    pub fn add_amode(&mut self, amode: Amode) -> AmodeAt {
        self.amodes.push(amode);
        AmodeAt(self.amodes.len() - 1)
    }

    pub(crate) fn push_imm(&mut self, value: i64) -> ImmAt {
        self.imms.push(Imm(value));
        ImmAt(self.imms.len() - 1)
    }

    pub(crate) fn push_inst(&mut self, data: InstData) -> Inst {
        self.insts.push(data);
        self.homes.push(None);
        Inst(self.insts.len() - 1)
    }

    pub(crate) fn append_inst(&mut self, block: Block, inst: Inst) {
        self.homes[inst.0] = Some(block);
        self[block].insts.push(inst);
    }
}

impl Index<Block> for Func {
    type Output = BlockData;

    fn index(&self, block: Block) -> &BlockData {
        &self.blocks[block.0]
    }
}

impl IndexMut<Block> for Func {
    fn index_mut(&mut self, block: Block) -> &mut BlockData {
        &mut self.blocks[block.0]
    }
}

impl Index<Inst> for Func {
    type Output = InstData;

    fn index(&self, inst: Inst) -> &InstData {
        &self.insts[inst.0]
    }
}

impl IndexMut<Inst> for Func {
    fn index_mut(&mut self, inst: Inst) -> &mut InstData {
        &mut self.insts[inst.0]
    }
}

impl Index<Operands> for Func {
    type Output = [Operand];

    fn index(&self, at: Operands) -> &[Operand] {
        &self.operands[at.start..at.start + at.len]
    }
}

impl Index<ImmAt> for Func {
    type Output = Imm;

    fn index(&self, at: ImmAt) -> &Imm {
        &self.imms[at.0]
    }
}

impl Index<AmodeAt> for Func {
    type Output = Amode;

    fn index(&self, at: AmodeAt) -> &Amode {
        &self.amodes[at.0]
    }
}

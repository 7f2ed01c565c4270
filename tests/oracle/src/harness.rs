//! From accepted records to a function of the text's kind, through its passes, to laid records.
//!
//! A block's number is its number in the function, so the first block that the text makes is 128.

use crate::layout;
use judge::records::{
    ADDRESS, ARM, BLOCK, BRIDGE, Block, COLD, Choices, DEAD_END, ENTRY, Graph, HEAD, Laid,
    MOST_BLOCKS, NAMED, NO_SPLIT, PARAMS, WALKING, record,
};
use rucc_base::Interner;
use rucc_base::hash::Set;
use rucc_mir as mir;
use rucc_target::{BranchInsts, Role};

/// The names of what ends a block. Those of end 6 differ from those that the pass writes, so that
/// what it wrote can be told by name.
static INSTS: BranchInsts = BranchInsts {
    prefix: "any.",
    jump: "jump",
    cond: "branch",
    indirect: "indirect",
    goto: "template",
    conditional: &["jump_on_sign", "jump_on_carry"],
    test: "test",
    if_true: "jump_if_true",
    if_false: "jump_if_false",
    fused: &[],
    readings: &[],
    zero: &[],
    bits: &[],
    near: 0,
    flag_line: |_| None,
};

const OPERAND: mir::Operand = mir::Operand { reg: mir::Reg(0), role: Role::Use };

/// A function built from a graph, with what the passes take beside it.
#[derive(Debug)]
pub struct Built {
    func: mir::Func,
    names: Interner,
    fused: layout::Fused,
    walks: Vec<mir::Inst>,
}

/// What the passes answer beside the function that they change.
#[derive(Debug)]
pub struct Passed {
    moved: usize,
    heads: Vec<mir::Block>,
}

/// The layout that the text gives an accepted graph.
///
/// # Panics
///
/// As the text does, on a graph under refusal 9.
#[must_use]
pub fn lay(graph: &Graph, choices: Choices) -> Laid {
    let mut built = built(graph);
    let passed = built.pass(choices);
    laid(graph, &mut built, &passed)
}

/// The function of an accepted graph, on which the passes have still to be run.
#[must_use]
pub fn built(graph: &Graph) -> Built {
    let order: Vec<mir::Block> = graph.blocks.iter().map(|block| at(block.number)).collect();
    let entry = graph.entry().map(|block| at(block.number));
    let func = mir::Func::listing(MOST_BLOCKS, &order, entry);
    let mut names = Interner::default();
    let fused = layout::Fused::new(&INSTS, &mut names);
    let mut built = Built { func, names, fused, walks: Vec::new() };
    for (index, block) in graph.blocks.iter().enumerate() {
        // The address is taken in another block, where there is one.
        let holder = order[(index + 1) % order.len()];
        built.mark(block, holder);
        built.end(block);
    }
    for arm in &graph.arms {
        let mut call = mir::BlockCall::to(at(arm.to)).taken(mir::Weight::parts(arm.weight));
        call.args.extend(arm.args.then_some(OPERAND));
        built.func.succs_mut(at(arm.from)).push(call);
    }
    built
}

/// The same with the names that the passes ask for resolved beforehand, for whoever takes its time.
#[must_use]
pub fn built_resolved(graph: &Graph) -> Built {
    let mut built = built(graph);
    let written = [INSTS.jump, INSTS.if_true, INSTS.if_false, INSTS.test];
    let asked = [INSTS.cond, INSTS.goto, INSTS.indirect];
    for name in written.into_iter().chain(asked).chain(INSTS.conditional.iter().copied()) {
        built.names.know(INSTS.prefix, name);
    }
    built
}

fn at(number: u8) -> mir::Block {
    mir::Block::new(usize::from(number))
}

impl Built {
    /// Runs the text's passes, once and in their order.
    pub fn pass(&mut self, choices: Choices) -> Passed {
        let Built { func, names, fused, walks } = self;
        let moved = if choices.forward { layout::forward(func, &INSTS, names) } else { 0 };
        layout::blocks(func, &INSTS, fused, names, &Set::default(), walks, choices.reorder);
        Passed { moved, heads: layout::heads(func) }
    }

    fn opcode(&mut self, name: &str) -> mir::Opcode {
        mir::Opcode::new(self.names.join(INSTS.prefix, name))
    }

    /// Gives the block its weight and marks. What an instruction carries is put among those that
    /// are never a block's last, so that no mark changes an end.
    fn mark(&mut self, block: &Block, holder: mir::Block) {
        let here = at(block.number);
        let plain = mir::InstData::plain(self.opcode("plain"));
        self.func.set_weight(here, mir::Weight::parts(block.weight));
        if block.marked(COLD) {
            self.func.set_cold(here);
        }
        if block.marked(DEAD_END) {
            self.func.set_dead_end(here);
        }
        if block.marked(PARAMS) {
            self.func.set_params(here, &[OPERAND]);
        }
        // Even numbers have a name and odd ones are landing pads: one mark stands for both.
        if block.marked(NAMED) && block.number.is_multiple_of(2) {
            let name = self.names.intern("label");
            self.func.set_block_name(here, name);
        } else if block.marked(NAMED) {
            let call = self.func.note(holder, plain);
            self.func.landings.push((call, here));
        }
        if block.marked(ADDRESS) {
            let address = mir::Amode { block: Some(here), ..mir::Amode::default() };
            let mem = Some(self.func.add_amode(address));
            self.func.note(holder, mir::InstData { mem, ..plain });
        }
        if block.marked(WALKING) {
            let walk = self.func.note(here, plain);
            self.walks.push(walk);
        }
    }

    /// Writes the instruction that the block ends with.
    fn end(&mut self, block: &Block) {
        let conditional = INSTS.conditional[usize::from(block.number) % 2];
        let name = match block.end {
            0 => return,
            1 => "plain",
            2 => INSTS.cond,
            3 | 4 => INSTS.indirect,
            5 => INSTS.goto,
            _ => conditional,
        };
        let opcode = self.opcode(name);
        let last = self.func.build(at(block.number), opcode).operand(OPERAND).finish();
        if block.end == 3 {
            self.func.tables.push(mir::Table { jump: last });
        }
    }

    /// The exit byte, by the last instruction the text left in the block.
    fn exit(&mut self, block: mir::Block) -> u8 {
        let Some(last) = self.func.terminator(block) else { return 0 };
        let opcode = self.func[last].opcode;
        let written = [INSTS.jump, INSTS.if_true, INSTS.if_false];
        let found = (1..).zip(written).find(|&(_, name)| self.opcode(name) == opcode);
        found.map_or(0, |(exit, _)| exit)
    }
}

/// Laid records and counts of a function that has been through the passes.
fn laid(graph: &Graph, built: &mut Built, passed: &Passed) -> Laid {
    let order: Vec<mir::Block> = built.func.blocks().collect();
    let mut bytes = Vec::new();
    for &block in &order {
        bytes.extend(laid_block(graph, built, block, passed.heads.contains(&block)));
    }
    for &block in &order {
        for arm in &built.func[block].succs {
            let lead = [ARM, number(block), number(arm.block), u8::from(!arm.args.is_empty())];
            bytes.extend(record(lead, arm.weight.raw()));
        }
    }
    let cold = built.func.cold;
    let split = order.iter().position(|&block| Some(block) == cold);
    Laid {
        bytes,
        blocks: graph.blocks.len() as u64,
        bridges: (order.len() - graph.blocks.len()) as u64,
        moved: passed.moved as u64,
        split: split.map_or(NO_SPLIT, |place| place as u64),
    }
}

/// One laid block: the marks that the passes change are read from the function, the others from
/// the graph.
fn laid_block(graph: &Graph, built: &mut Built, block: mir::Block, head: bool) -> [u8; 16] {
    let read = graph.blocks.iter().find(|read| at(read.number) == block);
    let kept = ENTRY | PARAMS | NAMED | ADDRESS | WALKING;
    let exit = built.exit(block);
    let data = &built.func[block];
    let set = |mark: u8, on: bool| if on { mark } else { 0 };
    let marks = read.map_or(0, |read| read.marks & kept)
        | set(COLD, data.cold)
        | set(DEAD_END, data.dead_end)
        | set(HEAD, head);
    let (kind, end) = read.map_or((BRIDGE, 0), |read| (BLOCK, read.end));
    let mut bytes = record([kind, number(block), marks, end], data.weight.raw());
    bytes[4] = u8::from(built.func.cold == Some(block));
    bytes[5] = exit;
    bytes
}

fn number(block: mir::Block) -> u8 {
    u8::try_from(block.index()).expect("there are at most 256 blocks with bridges")
}

//! What the Rust text asks of a function: blocks with arms and weights, and their instructions.
//!
//! Document 01's rulings on what the text leaves open are here: what a weight is, how a share is
//! rounded, and that a new block is warm.

mod func;
mod inst;
mod weight;

pub use func::{Block, BlockCall, BlockData, Func, Table};
pub use inst::{
    Amode, AmodeAt, Build, Flags, Imm, ImmAt, Inst, InstData, Opcode, Operand, Operands, Reg, Span,
};
pub use weight::Weight;

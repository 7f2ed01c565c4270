//! What the text asks of a neighbour of its own crate, for a pass that we leave out.

use rucc_mir as mir;

/// How often each register is read. No register is virtual here, so nobody looks at the counts.
pub struct Reads;

impl Reads {
    pub fn of(_func: &mir::Func) -> Self {
        Reads
    }

    pub fn count(&self, _reg: mir::Reg) -> usize {
        0
    }
}

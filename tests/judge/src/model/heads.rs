//! Heads: past first place, heavy enough, and entered from their own or a later place that they
//! reach by a chain of arms.

use super::account::{Account, Looped};
use super::{Mistake, Model};
use crate::records::{BRIDGE, HEAD};

impl Model {
    pub(super) fn mark_heads(&mut self, order: &[usize], account: &mut Account) {
        let counts = |at: usize| {
            self.nodes[at].kind != BRIDGE || !self.wrong(Mistake::HottestWithoutBridges)
        };
        let weight = |at: usize| self.nodes[at].block.weight;
        let hottest = order.iter().filter(|&&at| counts(at)).map(|&at| weight(at)).max();
        let hottest = hottest.unwrap_or(0);
        let past = if self.wrong(Mistake::FirstIsHead) { 0 } else { 1 };
        let loops = (past..order.len()).filter(|&place| self.entered_from_behind(order, place));
        let loops: Vec<usize> = loops.map(|place| order[place]).collect();
        for at in loops {
            let weight = self.nodes[at].block.weight;
            account.loops.push(Looped { weight, hottest });
            if self.heavy_enough(weight, hottest) {
                self.nodes[at].block.marks |= HEAD;
            }
        }
    }

    /// Whether a weight is a hundredth of the hottest.
    fn heavy_enough(&self, weight: u64, hottest: u64) -> bool {
        let up = self.wrong(Mistake::HundredthRoundedUp);
        let floor = if up { hottest.div_ceil(100) } else { hottest / 100 };
        weight > floor || weight == floor && !self.wrong(Mistake::HeadToPass)
    }

    fn entered_from_behind(&self, order: &[usize], place: usize) -> bool {
        let head = order[place];
        let enters = |from: usize| self.nodes[from].arms.iter().any(|arm| arm.to == head);
        let mut behind = order[place..].iter().filter(|&&from| enters(from)).peekable();
        if behind.peek().is_none() {
            return false;
        }
        let reached = self.reached(head);
        let any = self.wrong(Mistake::HeadWithoutLoop);
        behind.any(|&from| any || reached[from])
    }

    /// What a block reaches by a chain of arms, itself included.
    fn reached(&self, start: usize) -> Vec<bool> {
        let mut reached = vec![false; self.nodes.len()];
        reached[start] = true;
        let mut open = vec![start];
        while let Some(at) = open.pop() {
            for arm in &self.nodes[at].arms {
                if !std::mem::replace(&mut reached[arm.to], true) {
                    open.push(arm.to);
                }
            }
        }
        reached
    }
}

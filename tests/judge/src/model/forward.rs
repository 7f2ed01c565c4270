//! Forwarding, by document 01's section of that name.

use super::{Mistake, Model};
use crate::records::{ADDRESS, DEAD_END, NAMED, PARAMS};

impl Model {
    /// Moves arms past ways through, clears what nothing enters any more, and counts the moves.
    pub(super) fn forward(&mut self) -> u64 {
        let goals: Vec<Option<usize>> = (0..self.nodes.len()).map(|at| self.goal(at)).collect();
        let mut moved = 0;
        for at in 0..self.nodes.len() {
            if !self.ours(at) {
                continue;
            }
            for arm in 0..self.nodes[at].arms.len() {
                let Some(goal) = goals[self.nodes[at].arms[arm].to] else { continue };
                let equal = self.nodes[at].arms.iter().any(|other| other.to == goal);
                if !equal || self.wrong(Mistake::MovesNextToAnEqual) {
                    self.nodes[at].arms[arm].to = goal;
                    moved += 1;
                }
            }
        }
        self.clear(&goals);
        moved
    }

    /// Whether a block's arms may be moved.
    fn ours(&self, at: usize) -> bool {
        let node = &self.nodes[at];
        match (node.arms.len(), node.block.end) {
            (0, _) => false,
            (_, 3) => true,
            (1, end) => end <= 2,
            (2, end) => end == 2,
            _ => false,
        }
    }

    /// Where a way through goes on to.
    fn way_through(&self, at: usize) -> Option<usize> {
        let node = &self.nodes[at];
        let [arm] = node.arms[..] else { return None };
        let marked = node.block.marked(DEAD_END | PARAMS | NAMED);
        let open = node.block.end == 0 && !arm.args && !marked && self.entry != Some(at);
        open.then_some(arm.to)
    }

    /// The first block on a way through's chain that is none, if the chain ever leaves.
    fn goal(&self, from: usize) -> Option<usize> {
        let mut at = self.way_through(from)?;
        for _ in 0..self.nodes.len() {
            match self.way_through(at) {
                Some(_) if self.wrong(Mistake::GoalIsOneStep) && at != from => return Some(at),
                Some(next) => at = next,
                None => return Some(at),
            }
        }
        None
    }

    fn clear(&mut self, goals: &[Option<usize>]) {
        let entered = self.entered();
        for (at, goal) in goals.iter().enumerate() {
            let address = self.nodes[at].block.marked(ADDRESS);
            let held = entered[at] || address && !self.wrong(Mistake::AddressForgotten);
            if goal.is_none() || held {
                continue;
            }
            let node = &mut self.nodes[at];
            node.arms.clear();
            node.block.marks |= DEAD_END;
            node.block.weight = 0;
        }
    }

    /// Which blocks have an arm in.
    fn entered(&self) -> Vec<bool> {
        let mut entered = vec![false; self.nodes.len()];
        for arm in self.nodes.iter().flat_map(|node| &node.arms) {
            entered[arm.to] = true;
        }
        entered
    }
}

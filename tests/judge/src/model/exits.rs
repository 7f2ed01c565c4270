//! Exits and bridges, by document 01's section of that name.

use super::{Mistake, Model, Node, Way};
use crate::records::{BRIDGE, Block, COLD, MOST_BLOCKS};

/// How a block leaves.
enum Exit {
    Nothing,
    Jump,
    Branch,
    Exchanged,
    /// A bridge on the arm of that index, with the exit byte of its block.
    Bridge(usize, u8),
}

impl Model {
    /// Gives every block its exit, and puts bridges into the order.
    pub(super) fn exits(
        &mut self,
        order: &[usize],
        split: Option<usize>,
    ) -> (Vec<usize>, Option<usize>) {
        let blocks = self.nodes.len();
        let mut laid = Vec::new();
        let mut moved_split = split;
        for (place, &at) in order.iter().enumerate() {
            let ends_part = split == Some(place + 1) && !self.wrong(Mistake::FallsAcrossTheSplit);
            let next = if ends_part { None } else { order.get(place + 1).copied() };
            if split == Some(place) {
                moved_split = Some(laid.len());
            }
            laid.push(at);
            let exit = self.exit(at, next);
            self.nodes[at].exit = match exit {
                Exit::Nothing => 0,
                Exit::Jump => 1,
                Exit::Branch => 2,
                Exit::Exchanged => 3,
                Exit::Bridge(_, byte) => byte,
            };
            match exit {
                Exit::Exchanged => self.nodes[at].arms.swap(0, 1),
                Exit::Bridge(arm, _) => {
                    let in_cold_part = split.is_some_and(|first| place >= first);
                    let like_block =
                        self.wrong(Mistake::BridgeLikeItsBlock) && self.nodes[at].cold();
                    let number = MOST_BLOCKS + self.nodes.len() - blocks;
                    laid.push(self.bridge(at, arm, number, in_cold_part || like_block));
                }
                _ => {}
            }
        }
        (laid, moved_split)
    }

    fn exit(&self, at: usize, next: Option<usize>) -> Exit {
        let node = &self.nodes[at];
        let is_next = |arm: usize| next == Some(node.arms[arm].to);
        match (node.block.end, node.arms.len()) {
            (3 | 4, _) | (_, 0) => Exit::Nothing,
            (_, 1) => {
                if is_next(0) {
                    Exit::Nothing
                } else {
                    Exit::Jump
                }
            }
            (5, _) => {
                if is_next(0) {
                    Exit::Nothing
                } else {
                    Exit::Bridge(0, 0)
                }
            }
            (6, _) => {
                if is_next(1) {
                    Exit::Nothing
                } else {
                    Exit::Bridge(1, 0)
                }
            }
            _ if is_next(1) && !(is_next(0) && self.wrong(Mistake::ExchangesEqualArms)) => {
                Exit::Branch
            }
            _ if is_next(0) => Exit::Exchanged,
            _ => Exit::Bridge(1, 2),
        }
    }

    /// Makes a bridge on an arm, and gives its index.
    fn bridge(&mut self, at: usize, arm: usize, number: usize, cold: bool) -> usize {
        let index = self.nodes.len();
        let way = self.nodes[at].arms[arm];
        self.nodes[at].arms[arm] = Way { to: index, args: false, weight: way.weight };
        let number = u8::try_from(number).expect("there are at most 128 bridges");
        let marks = if cold { COLD } else { 0 };
        let block = Block { number, marks, end: 0, weight: way.weight };
        self.nodes.push(Node { kind: BRIDGE, block, arms: vec![way], exit: 1 });
        index
    }
}

//! Document 01's layout rules read a second time, and the ways they are easily got wrong.
//!
//! The expected layouts are the Rust text's, never this module's. It is here so that a test can
//! say of the files tried that each mistake would have shown on some of them (a layout is made
//! with one [`Mistake`], or with none, and the two are compared), and which decisions were made on
//! the way to their layouts ([`Account`]).

mod account;
mod exits;
mod forward;
mod heads;
mod mistake;
mod rotate;
mod traces;

pub use account::{Account, Back, ROUNDS, Target, Tried, Turned};
pub use mistake::Mistake;

use crate::records::{ARM, Arm, BLOCK, Block, COLD, Choices, ENTRY, Graph, Laid, NO_SPLIT, record};

/// An arm by the listed place, or the bridge's index, that it goes to.
#[derive(Clone, Copy)]
struct Way {
    to: usize,
    args: bool,
    weight: u64,
}

/// A block, or a bridge, with its arms.
#[derive(Clone)]
struct Node {
    kind: u8,
    block: Block,
    arms: Vec<Way>,
    exit: u8,
}

impl Node {
    fn cold(&self) -> bool {
        self.block.marked(COLD)
    }
}

/// A graph on its way to a layout: blocks by listed place, and bridges behind them.
struct Model {
    nodes: Vec<Node>,
    entry: Option<usize>,
    mistake: Option<Mistake>,
}

/// The layout of an accepted graph, with a mistake or without.
#[must_use]
pub fn lay(graph: &Graph, choices: Choices, mistake: Option<Mistake>) -> Laid {
    laid(graph, choices, mistake).0
}

/// What is decided on the way to the layout of an accepted graph.
#[must_use]
pub fn account(graph: &Graph, choices: Choices) -> Account {
    laid(graph, choices, None).1
}

fn laid(graph: &Graph, choices: Choices, mistake: Option<Mistake>) -> (Laid, Account) {
    let mut model = Model::of(graph, mistake);
    let mut account = Account::default();
    let moved = if choices.forward { model.forward() } else { 0 };
    let parted = model.parts();
    if parted {
        model.spread();
    }
    let plain = model.plain_order();
    let order = if choices.reorder { model.traces(&plain, &mut account) } else { plain.clone() };
    account.reordered = order != plain;
    let (order, split) = model.split(order, parted);
    let (order, split) = model.exits(&order, split);
    model.mark_heads(&order, &mut account);
    let bridges = (model.nodes.len() - graph.blocks.len()) as u64;
    let laid = Laid {
        bytes: model.records(&order, split),
        blocks: graph.blocks.len() as u64,
        bridges,
        moved,
        split: split.map_or(NO_SPLIT, |place| place as u64),
    };
    (laid, account)
}

impl Model {
    fn of(graph: &Graph, mistake: Option<Mistake>) -> Self {
        let place = |number: u8| {
            let found = graph.blocks.iter().position(|block| block.number == number);
            found.expect("an accepted arm joins listed blocks")
        };
        let node = |block: &Block| {
            let arms = graph.arms_of(block.number);
            let way = |arm: &Arm| Way { to: place(arm.to), args: arm.args, weight: arm.weight };
            Node { kind: BLOCK, block: *block, arms: arms.map(way).collect(), exit: 0 }
        };
        let nodes = graph.blocks.iter().map(node).collect();
        let entry = graph.blocks.iter().position(|block| block.marked(ENTRY));
        Model { nodes, entry, mistake }
    }

    /// Whether this layout is to be made with that mistake.
    fn wrong(&self, mistake: Mistake) -> bool {
        self.mistake == Some(mistake)
    }

    /// Whether there is a warm entry and some cold block.
    fn parts(&self) -> bool {
        self.entry.is_some_and(|entry| !self.nodes[entry].cold())
            && self.nodes.iter().any(Node::cold)
    }

    /// Marks the least set that holds the cold blocks and every other block but the entry that has
    /// ways in, all of them from inside the set.
    fn spread(&mut self) {
        let count = self.nodes.len();
        let mut ways = vec![Vec::new(); count];
        for (from, node) in self.nodes.iter().enumerate() {
            for arm in &node.arms {
                ways[arm.to].push(from);
            }
        }
        let around = self.wrong(Mistake::ColdAroundALoop);
        let kept = |at: usize| self.nodes[at].cold();
        let mut inside: Vec<bool> = (0..count)
            .map(|at| kept(at) || around && Some(at) != self.entry && !ways[at].is_empty())
            .collect();
        // The least set grows from the cold blocks; the mistaken largest one shrinks to them.
        loop {
            let fed = |at: usize| {
                let all = ways[at].iter().all(|&from| inside[from]);
                kept(at) || Some(at) != self.entry && !ways[at].is_empty() && all
            };
            let next: Vec<bool> = (0..count).map(fed).collect();
            if next == inside {
                break;
            }
            inside = next;
        }
        for (node, cold) in self.nodes.iter_mut().zip(inside) {
            node.block.marks |= if cold { COLD } else { 0 };
        }
    }

    /// Warm blocks and then cold ones, each in order, where there are two parts.
    fn split(&self, order: Vec<usize>, parted: bool) -> (Vec<usize>, Option<usize>) {
        if !parted {
            return (order, None);
        }
        let (warm, cold): (Vec<usize>, Vec<usize>) =
            order.into_iter().partition(|&at| !self.nodes[at].cold());
        let first = warm.len();
        ([warm, cold].concat(), Some(first))
    }

    fn records(&self, order: &[usize], split: Option<usize>) -> Vec<u8> {
        let mut bytes = Vec::new();
        for (place, &at) in order.iter().enumerate() {
            let Node { kind, block, exit, .. } = &self.nodes[at];
            let mut laid = record([*kind, block.number, block.marks, block.end], block.weight);
            laid[4] = u8::from(split == Some(place));
            laid[5] = *exit;
            bytes.extend(laid);
        }
        for &at in order {
            let from = self.nodes[at].block.number;
            for arm in &self.nodes[at].arms {
                let to = self.nodes[arm.to].block.number;
                bytes.extend(record([ARM, from, to, u8::from(arm.args)], arm.weight));
            }
        }
        bytes
    }
}

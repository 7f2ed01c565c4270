//! Rotation, by document 01's section of that name.

use super::account::{Account, Back, Target, Turned, greatest};
use super::traces::Found;
use super::{Mistake, Model, Way};
use crate::records::WALKING;

/// An exit of a loop: the index in the loop of the block it leaves, where it goes and its weight.
struct Exit {
    index: usize,
    target: Target,
    weight: u64,
}

impl Model {
    /// The loop at the end of a trace, turned: the block with the chosen exit goes last.
    pub(super) fn rotate(&self, trace: &mut [usize], found: &Found, account: &mut Account) {
        let Some(arm) = self.back(trace, found, account) else { return };
        let Some(from) = self.goes_back(trace, arm) else { return };
        let exits = self.exits_of(trace, from, found);
        let keys: Vec<[u64; 3]> = exits.iter().map(|exit| self.exit_key(exit)).collect();
        let chosen = greatest(&keys);
        let turns = self.turns(trace, from, arm);
        let part = &mut trace[from..];
        let index = chosen.map(|(best, _)| exits[best].index);
        let changes = turns && index.is_some_and(|index| index + 1 < part.len());
        let how_much = if from == 0 { Turned::Whole } else { Turned::End };
        account.backs.push(Back {
            weight: arm.weight,
            head: self.nodes[arm.to].block.weight,
            entry: Some(arm.to) == self.entry,
            walks: self.walks(part),
            exits: exits.iter().map(|exit| exit.target).collect(),
            by: chosen.and_then(|(_, by)| by),
            passed_over: self.leaves_from_many(part),
            turned: changes.then_some(how_much),
        });
        if let Some(index) = index.filter(|_| turns) {
            part.rotate_left(index + 1);
        }
    }

    /// The last block's heaviest arm, the last on ties.
    fn back(&self, trace: &[usize], found: &Found, account: &mut Account) -> Option<&Way> {
        let arms = &self.nodes[*trace.last()?].arms;
        let heaviest = arms.iter().map(|arm| arm.weight).max()?;
        let tied = || arms.iter().filter(|arm| arm.weight == heaviest);
        let (first, last) = (tied().next()?, tied().next_back()?);
        let turns = |arm: &Way| {
            let from = self.goes_back(trace, arm)?;
            let left = !self.exits_of(trace, from, found).is_empty();
            (left && self.turns(trace, from, arm)).then_some(from)
        };
        match (turns(first), turns(last)) {
            (Some(_), None) => account.kept_by_last += 1,
            (by_first, Some(from)) if by_first != Some(from) => account.turned_by_last += 1,
            _ => {}
        }
        Some(if self.wrong(Mistake::TurnsByTheFirst) { first } else { last })
    }

    /// Where in its trace an arm of the last block goes, if not to that block itself.
    fn goes_back(&self, trace: &[usize], arm: &Way) -> Option<usize> {
        let from = trace.iter().position(|&at| at == arm.to)?;
        (from + 1 < trace.len()).then_some(from)
    }

    /// Whether the part of a trace from a block on may turn, for an arm back to it.
    fn turns(&self, trace: &[usize], from: usize, back: &Way) -> bool {
        let head = self.nodes[back.to].block.weight;
        let (five, four) = (u128::from(back.weight) * 5, u128::from(head) * 4);
        let often = five > four || five == four && self.wrong(Mistake::TurnsAtFourFifths);
        let walks = self.walks(&trace[from..]) && !self.wrong(Mistake::TurnsWalking);
        often && !walks && Some(back.to) != self.entry
    }

    fn walks(&self, part: &[usize]) -> bool {
        part.iter().any(|&at| self.nodes[at].block.marked(WALKING))
    }

    /// The exits of the part of a trace from a block on, without those of blocks with three arms.
    fn exits_of(&self, trace: &[usize], from: usize, found: &Found) -> Vec<Exit> {
        let part = &trace[from..];
        let many = self.wrong(Mistake::LeavesFromMany);
        let mut exits = Vec::new();
        for (index, &at) in part.iter().enumerate() {
            let arms = &self.nodes[at].arms;
            if arms.len() <= 2 || many {
                let out = arms.iter().filter(|arm| !part.contains(&arm.to));
                exits.extend(out.map(|arm| {
                    let target = target(arm.to, trace[0], found);
                    Exit { index, target, weight: arm.weight }
                }));
            }
        }
        exits
    }

    fn leaves_from_many(&self, part: &[usize]) -> bool {
        let many = part.iter().map(|&at| &self.nodes[at].arms).filter(|arms| arms.len() > 2);
        many.flatten().any(|arm| !part.contains(&arm.to))
    }

    /// Preferred targets, then weight, then the first block.
    fn exit_key(&self, exit: &Exit) -> [u64; 3] {
        let preferred = match exit.target {
            Target::OwnStart => self.wrong(Mistake::OwnStartCounts),
            Target::TurnedStart => self.wrong(Mistake::StartsBeforeTurning),
            target => target.preferred(),
        };
        let heard = preferred && !self.wrong(Mistake::LeavesByWeight);
        let last = self.wrong(Mistake::LeavesByTheLast);
        let index = exit.index as u64;
        [u64::from(heard), exit.weight, if last { index } else { u64::MAX - index }]
    }
}

/// What stands where an exit of a trace goes.
fn target(to: usize, own_start: usize, found: &Found) -> Target {
    if to == own_start {
        Target::OwnStart
    } else if !found.laid[to] {
        Target::Unlaid
    } else if found.starts(to) {
        Target::Start
    } else if found.started.contains(&to) {
        Target::TurnedStart
    } else {
        Target::Laid
    }
}

//! The plain order, traces and joining, by document 01's sections of those names.

use super::account::{Account, ROUNDS, Start, Trace, Tried, greatest};
use super::{Mistake, Model, Node, Way};

const SCALE: u128 = 10_000;

/// What the rounds have laid so far.
pub(super) struct Found {
    pub traces: Vec<Vec<usize>>,
    /// Where each trace was started, which is not its first block if it was turned.
    pub started: Vec<usize>,
    pub laid: Vec<bool>,
    /// The place of each block in the plain order.
    plain: Vec<usize>,
}

/// A round's number and what it asks for.
#[derive(Clone, Copy)]
struct Round {
    number: usize,
    likely: u64,
    floor: u64,
}

impl Found {
    fn nothing(order: &[usize]) -> Self {
        let mut plain = vec![0; order.len()];
        for (place, &at) in order.iter().enumerate() {
            plain[at] = place;
        }
        let laid = vec![false; order.len()];
        Found { traces: Vec::new(), started: Vec::new(), laid, plain }
    }

    pub fn starts(&self, at: usize) -> bool {
        self.traces.iter().any(|trace| trace[0] == at)
    }
}

impl Model {
    /// Depth-first from the entry, last arm first, in reverse finishing order; then the rest.
    pub(super) fn plain_order(&self) -> Vec<usize> {
        let mut finished = Vec::new();
        let mut seen = vec![false; self.nodes.len()];
        if let Some(entry) = self.entry {
            self.visit(entry, &mut seen, &mut finished);
        }
        finished.reverse();
        finished.extend((0..self.nodes.len()).filter(|&at| !seen[at]));
        finished
    }

    fn visit(&self, at: usize, seen: &mut [bool], finished: &mut Vec<usize>) {
        seen[at] = true;
        let mut arms = self.nodes[at].arms.clone();
        if !self.wrong(Mistake::FirstArmFirst) {
            arms.reverse();
        }
        for arm in arms {
            if !seen[arm.to] {
                self.visit(arm.to, seen, finished);
            }
        }
        finished.push(at);
    }

    /// The order of the joined traces, by the plain order.
    pub(super) fn traces(&self, plain: &[usize], account: &mut Account) -> Vec<usize> {
        let mut found = Found::nothing(plain);
        let entered = self.entered_weight();
        let mut first = self.entry;
        for (number, (likely, often)) in ROUNDS.into_iter().enumerate() {
            let floor = (u128::from(entered) * u128::from(often) / SCALE) as u64;
            let round = Round { number, likely, floor };
            account.floors.push(floor);
            while let Some(start) = first.take().or_else(|| self.start(&found, round, account)) {
                let mut trace = self.trace(start, &mut found.laid, round, account);
                self.rotate(&mut trace, &found, account);
                account.traces.push(Trace { length: trace.len(), cold: self.nodes[start].cold() });
                found.started.push(start);
                found.traces.push(trace);
            }
        }
        if self.wrong(Mistake::OnlyTheFirstTrace) {
            return self.first_and_the_rest(&found.traces);
        }
        self.join(&found.traces, account)
    }

    /// The weight that the floors are shares of.
    fn entered_weight(&self) -> u64 {
        if self.wrong(Mistake::FloorOfTheHottest) {
            return self.nodes.iter().map(|node| node.block.weight).max().unwrap_or(0);
        }
        let absent = if self.wrong(Mistake::NoFloorWithoutEntry) { 0 } else { 10_000 };
        self.entry.map_or(absent, |entry| self.nodes[entry].block.weight)
    }

    fn first_and_the_rest(&self, traces: &[Vec<usize>]) -> Vec<usize> {
        let first = traces.first().cloned().unwrap_or_default();
        let rest = (0..self.nodes.len()).filter(|at| !first.contains(at)).collect();
        [first, rest].concat()
    }

    /// The greatest unlaid block at or over the floor, by the keys of document 01.
    fn start(&self, found: &Found, round: Round, account: &mut Account) -> Option<usize> {
        let reach = self.heaviest_in(&found.laid);
        let heavy = |at: usize| self.enough(self.nodes[at].block.weight, round.floor);
        let open = (0..self.nodes.len()).filter(|&at| !found.laid[at] && heavy(at));
        let open: Vec<usize> = open.collect();
        let key = |&at: &usize| {
            let (block, place) = (&self.nodes[at].block, found.plain[at] as u64);
            let warm = !self.nodes[at].cold() || self.wrong(Mistake::StartInTheCold);
            let late = self.wrong(Mistake::StartAtTheLatest);
            let place = if late { place } else { u64::MAX - place };
            let mut key = [u64::from(warm), reach[at], block.weight, place];
            if self.wrong(Mistake::StartByWeight) {
                key.swap(1, 2);
            }
            key
        };
        let keys: Vec<[u64; 4]> = open.iter().map(key).collect();
        let (best, by) = greatest(&keys)?;
        let weight = self.nodes[open[best]].block.weight;
        account.starts.push(Start { round: round.number, weight, by });
        Some(open[best])
    }

    /// The heaviest arm into each block from a laid one.
    fn heaviest_in(&self, laid: &[bool]) -> Vec<u64> {
        let mut heaviest = vec![0; laid.len()];
        for (node, _) in self.nodes.iter().zip(laid).filter(|(_, laid)| **laid) {
            for arm in &node.arms {
                heaviest[arm.to] = heaviest[arm.to].max(arm.weight);
            }
        }
        heaviest
    }

    fn enough(&self, weight: u64, floor: u64) -> bool {
        weight > floor || weight == floor && (floor == 0 || !self.wrong(Mistake::FloorToPass))
    }

    fn trace(
        &self,
        start: usize,
        laid: &mut [bool],
        round: Round,
        account: &mut Account,
    ) -> Vec<usize> {
        let mut trace = vec![start];
        laid[start] = true;
        let mut at = start;
        while let Some(next) = self.along(at, laid, round, account) {
            laid[next] = true;
            trace.push(next);
            at = next;
        }
        trace
    }

    /// Where the heaviest arm that may be followed goes, the first on ties.
    fn along(
        &self,
        at: usize,
        laid: &[bool],
        round: Round,
        account: &mut Account,
    ) -> Option<usize> {
        let node = &self.nodes[at];
        let unlaid = || node.arms.iter().filter(|arm| !laid[arm.to]);
        account.tried.extend(unlaid().map(|arm| self.tried(node, arm, round)));
        let best = unlaid().filter(|arm| self.follows(node, arm, round)).map(|arm| arm.weight);
        let best = best.max()?;
        let tied: Vec<usize> = unlaid()
            .filter(|arm| arm.weight == best && self.follows(node, arm, round))
            .map(|arm| arm.to)
            .collect();
        account.ties += usize::from(tied.iter().any(|to| *to != tied[0]));
        let last = self.wrong(Mistake::ExtendsByTheLast);
        if last { tied.last() } else { tied.first() }.copied()
    }

    fn tried(&self, node: &Node, arm: &Way, round: Round) -> Tried {
        let (weight, whole) = (arm.weight, node.block.weight);
        let crosses = self.nodes[arm.to].cold() != node.cold();
        Tried { round: round.number, weight, whole, share: share(weight, whole), crosses }
    }

    fn follows(&self, node: &Node, arm: &Way, round: Round) -> bool {
        let crosses = self.nodes[arm.to].cold() != node.cold();
        (!crosses || self.wrong(Mistake::ExtendsAcrossCold))
            && self.enough(arm.weight, round.floor)
            && self.likely(arm.weight, node.block.weight, round.likely)
    }

    fn likely(&self, part: u64, whole: u64, likely: u64) -> bool {
        if self.wrong(Mistake::ShareAcross) {
            return u128::from(part) * SCALE >= u128::from(whole) * u128::from(likely);
        }
        let share = share(part, whole);
        share > likely || share == likely && (likely == 0 || !self.wrong(Mistake::ShareToPass))
    }

    /// The traces in one order, each followed by the trace its last block best goes on to.
    fn join(&self, traces: &[Vec<usize>], account: &mut Account) -> Vec<usize> {
        let mut used = vec![false; traces.len()];
        let mut order = Vec::new();
        for from in 0..traces.len() {
            let mut next = (!used[from]).then_some(from);
            while let Some(at) = next {
                used[at] = true;
                order.extend(&traces[at]);
                next = self.joined(traces, &used, traces[at][traces[at].len() - 1], account);
            }
        }
        order
    }

    fn joined(
        &self,
        traces: &[Vec<usize>],
        used: &[bool],
        last: usize,
        account: &mut Account,
    ) -> Option<usize> {
        let node = &self.nodes[last];
        let mut open = Vec::new();
        for arm in &node.arms {
            let Some(to) = traces.iter().position(|trace| trace[0] == arm.to) else { continue };
            let crosses = self.nodes[arm.to].cold() != node.cold();
            account.apart += usize::from(!used[to] && crosses);
            if !used[to] && (!crosses || self.wrong(Mistake::JoinsAcrossCold)) {
                let any = self.wrong(Mistake::JoinsByRoundOnly);
                let length = if any { 0 } else { traces[to].len() as u64 };
                open.push([arm.weight, length, u64::MAX - to as u64]);
            }
        }
        let (best, by) = greatest(&open)?;
        account.joins.push(by);
        Some((u64::MAX - open[best][2]) as usize)
    }
}

/// A weight in ten thousandths of a whole, rounded down; nothing of no weight.
fn share(part: u64, whole: u64) -> u64 {
    let share = (u128::from(part) * SCALE).checked_div(u128::from(whole)).unwrap_or(0);
    u64::try_from(share).unwrap_or(u64::MAX)
}

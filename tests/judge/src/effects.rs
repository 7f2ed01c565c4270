//! What laying may do to a graph, and what it may decide on the way. A comparison is worth little
//! where they are not met.

use crate::model::{Account, Back, ROUNDS, Target, Tried, Turned};
use crate::records::{ARM, BLOCK, BRIDGE, COLD, Graph, HEAD, Laid, NO_SPLIT, RECORD, weight};

/// Something done, by name, that the laid records show.
pub type Effect = (&'static str, fn(&Graph, &Laid) -> bool);

pub const EFFECTS: [Effect; 17] = [
    ("arms moved", |_, laid| laid.moved > 0),
    ("a block cleared", |graph, laid| {
        of_kind(laid, ARM).count() < graph.arms.len() + laid.bridges as usize
    }),
    ("a block made cold", |graph, laid| {
        let cold = of_kind(laid, BLOCK).filter(|record| record[2] & COLD != 0).count();
        cold > graph.blocks.iter().filter(|block| block.marked(COLD)).count()
    }),
    ("blocks laid otherwise than listed", |graph, laid| {
        let listed = graph.blocks.iter().map(|block| block.number);
        !listed.eq(of_kind(laid, BLOCK).map(|record| record[1]))
    }),
    ("a split", |_, laid| laid.split != NO_SPLIT),
    ("a jump", |_, laid| of_kind(laid, BLOCK).any(|record| record[5] == 1)),
    ("a branch", |_, laid| of_kind(laid, BLOCK).any(|record| record[5] == 2)),
    ("an exchange", |_, laid| of_kind(laid, BLOCK).any(|record| record[5] == 3)),
    ("a bridge", |_, laid| laid.bridges > 0),
    ("a bridge without a split", |_, laid| laid.bridges > 0 && laid.split == NO_SPLIT),
    ("a bridge of a cold block without a split", |_, laid| {
        laid.split == NO_SPLIT && stand(laid).any(|(block, next)| cold(block) && bridge(next))
    }),
    ("a bridge before a split", |_, laid| bridged(laid, 0)),
    ("a bridge behind a split", |_, laid| bridged(laid, COLD)),
    ("a bridge with arguments", |_, laid| {
        of_kind(laid, ARM).any(|record| record[1] >= 128 && record[3] == 1)
    }),
    ("a bridge as the hottest", |_, laid| {
        let hottest = |kind| of_kind(laid, kind).map(weight).max();
        hottest(BRIDGE) > hottest(BLOCK)
    }),
    ("64 bridges", |_, laid| laid.bridges >= 64),
    ("a head", |_, laid| of_kind(laid, BLOCK).any(|record| record[2] & HEAD != 0)),
];

fn of_kind(laid: &Laid, kind: u8) -> impl Iterator<Item = &[u8]> {
    laid.bytes.chunks_exact(RECORD).filter(move |record| record[0] == kind)
}

/// Each record with the one behind it.
fn stand(laid: &Laid) -> impl Iterator<Item = (&[u8], &[u8])> {
    let records = laid.bytes.chunks_exact(RECORD);
    records.clone().zip(records.skip(1))
}

fn cold(record: &[u8]) -> bool {
    record[0] == BLOCK && record[2] & COLD != 0
}

fn bridge(record: &[u8]) -> bool {
    record[0] == BRIDGE
}

/// Whether there is a split, and a bridge with these marks.
fn bridged(laid: &Laid, marks: u8) -> bool {
    laid.split != NO_SPLIT && of_kind(laid, BRIDGE).any(|record| record[2] == marks)
}

/// Something decided while blocks are reordered and heads marked, by name. The laid records seldom
/// show it, so the model is asked.
pub type Decision = (&'static str, fn(&Account) -> bool);

pub const DECISIONS: [Decision; 60] = [
    ("another order than the plain one", |account| account.reordered),
    // Starts.
    ("a start in round one", starts_in::<0>),
    ("a start in round two", starts_in::<1>),
    ("a start in round three", starts_in::<2>),
    ("a start in round four", starts_in::<3>),
    ("a start chosen for its warmth", starts_by::<0>),
    ("a start chosen for its arm in", starts_by::<1>),
    ("a start chosen for its weight", starts_by::<2>),
    ("a start chosen for its plain place", starts_by::<3>),
    ("a start at the floor of round one", starts_at_floor::<0>),
    ("a start at the floor of round two", starts_at_floor::<1>),
    ("a start at the floor of round three", starts_at_floor::<2>),
    ("a start put off by one under the floor of round one", starts_late::<0>),
    ("a start put off by one under the floor of round two", starts_late::<1>),
    ("a start put off by one under the floor of round three", starts_late::<2>),
    // Extending.
    ("a trace of three blocks", |account| account.traces.iter().any(|trace| trace.length >= 3)),
    ("a cold trace of two blocks", |account| {
        account.traces.iter().any(|trace| trace.cold && trace.length >= 2)
    }),
    ("a tie of arms to go on by", |account| account.ties > 0),
    ("an arm at the floor of round one", |account| tried::<0>(account, at_floor)),
    ("an arm at the floor of round two", |account| tried::<1>(account, at_floor)),
    ("an arm at the floor of round three", |account| tried::<2>(account, at_floor)),
    ("an arm one under the floor of round one", |account| tried::<0>(account, under_floor)),
    ("an arm one under the floor of round two", |account| tried::<1>(account, under_floor)),
    ("an arm one under the floor of round three", |account| tried::<2>(account, under_floor)),
    ("a share of 4000 in round one", |account| tried::<0>(account, in_share::<4_000>)),
    ("a share of 3999 in round one", |account| tried::<0>(account, in_share::<3_999>)),
    ("an arm of no weight in round two", |account| tried::<1>(account, of_no_weight)),
    ("an arm of no weight in round three", |account| tried::<2>(account, of_no_weight)),
    ("an arm of a block of no weight in round one", |account| tried::<0>(account, of_nothing)),
    ("an arm of a block of no weight in round two", |account| tried::<1>(account, of_nothing)),
    ("an arm of a block of no weight in round three", |account| tried::<2>(account, of_nothing)),
    ("an arm of a block of no weight in round four", |account| tried::<3>(account, of_nothing)),
    ("an arm that a cold mark alone stops", |account| {
        account
            .tried
            .iter()
            .any(|arm| arm.crosses && arm.weight >= account.floors[arm.round] && likely(arm))
    }),
    // Rotation.
    ("a trace turned whole", |account| backs(account, |back| back.turned == Some(Turned::Whole))),
    ("a trace turned at its end", |account| {
        backs(account, |back| back.turned == Some(Turned::End))
    }),
    ("an arm back of four fifths at most", |account| backs(account, |back| fifths(back) == 0)),
    ("an arm back just over four fifths", |account| backs(account, |back| fifths(back) == 1)),
    ("a loop turned for the last of tied arms", |account| account.turned_by_last > 0),
    ("a loop kept for the last of tied arms", |account| account.kept_by_last > 0),
    ("a loop with a walking block", |account| backs(account, |back| back.walks)),
    ("a loop back to the entry", |account| backs(account, |back| back.entry)),
    ("a loop without an exit", |account| backs(account, |back| back.exits.is_empty())),
    ("a loop left from a block of three arms", |account| backs(account, |back| back.passed_over)),
    ("an exit chosen for its target", |account| exits_by(account, 0)),
    ("an exit chosen for its weight", |account| exits_by(account, 1)),
    ("an exit chosen for its place", |account| exits_by(account, 2)),
    ("an exit to an unlaid block", |account| exits_to(account, Target::Unlaid)),
    ("an exit to an earlier start", |account| exits_to(account, Target::Start)),
    ("an exit to an earlier start that was turned away", |account| {
        exits_to(account, Target::TurnedStart)
    }),
    ("an exit to the start of its own trace", |account| exits_to(account, Target::OwnStart)),
    ("an exit to another laid block", |account| exits_to(account, Target::Laid)),
    // Joining.
    ("a join by weight", |account| account.joins.contains(&Some(0))),
    ("a join by length", |account| account.joins.contains(&Some(1))),
    ("a join of the earlier trace", |account| account.joins.contains(&Some(2))),
    ("a trace kept apart by a cold mark", |account| account.apart > 0),
    // Heads.
    ("a head of a hundredth of the hottest", |account| {
        account.loops.iter().any(|head| head.weight == head.hottest / 100)
    }),
    ("a loop one under a hundredth of the hottest", |account| {
        account.loops.iter().any(|head| head.weight + 1 == head.hottest / 100)
    }),
    ("a loop of weight 0 where the hottest is 99", |account| looped(account, 0, 99)),
    ("a loop of weight 0 where the hottest is 199", |account| looped(account, 0, 199)),
    ("a loop of weight 1 where the hottest is 199", |account| looped(account, 1, 199)),
];

fn starts_in<const ROUND: usize>(account: &Account) -> bool {
    account.starts.iter().any(|start| start.round == ROUND)
}

fn starts_by<const KEY: usize>(account: &Account) -> bool {
    account.starts.iter().any(|start| start.by == Some(KEY))
}

fn starts_at_floor<const ROUND: usize>(account: &Account) -> bool {
    let floor = account.floors.get(ROUND).filter(|floor| **floor > 0);
    account.starts.iter().any(|start| start.round == ROUND && Some(&start.weight) == floor)
}

fn starts_late<const ROUND: usize>(account: &Account) -> bool {
    let under = account.floors.get(ROUND).and_then(|floor| floor.checked_sub(1));
    account.starts.iter().any(|start| start.round > ROUND && Some(start.weight) == under)
}

/// Whether a round tried an arm, to a block of the same cold mark, of which something holds with
/// regard to the round's floor.
fn tried<const ROUND: usize>(account: &Account, holds: fn(&Tried, u64) -> bool) -> bool {
    let in_round = |arm: &&Tried| arm.round == ROUND && !arm.crosses;
    account.tried.iter().filter(in_round).any(|arm| holds(arm, account.floors[ROUND]))
}

fn likely(arm: &Tried) -> bool {
    arm.share >= ROUNDS[arm.round].0
}

fn at_floor(arm: &Tried, floor: u64) -> bool {
    floor > 0 && arm.weight == floor && likely(arm)
}

fn under_floor(arm: &Tried, floor: u64) -> bool {
    floor.checked_sub(1) == Some(arm.weight) && likely(arm)
}

fn in_share<const SHARE: u64>(arm: &Tried, floor: u64) -> bool {
    arm.share == SHARE && arm.weight >= floor
}

/// After round one an arm at the floor has share enough, unless it or its block weighs nothing.
fn of_no_weight(arm: &Tried, floor: u64) -> bool {
    arm.whole > 0 && arm.weight == 0 && floor == 0
}

fn of_nothing(arm: &Tried, floor: u64) -> bool {
    arm.whole == 0 && arm.weight > 0 && arm.weight >= floor
}

fn backs(account: &Account, holds: fn(&Back) -> bool) -> bool {
    account.backs.iter().any(holds)
}

/// Whether a loop that turns has exits to choose between, and that key decides.
fn exits_by(account: &Account, key: usize) -> bool {
    account.backs.iter().any(|back| turns(back) && back.by == Some(key))
}

fn exits_to(account: &Account, target: Target) -> bool {
    account.backs.iter().any(|back| turns(back) && back.exits.contains(&target))
}

/// How much an arm back, which nothing else keeps from turning its loop, is over four fifths.
fn fifths(back: &Back) -> u64 {
    let most = (u128::from(back.head) * 4 / 5) as u64;
    let kept = back.walks || back.entry || back.exits.is_empty();
    if kept { u64::MAX } else { back.weight.wrapping_sub(most) }
}

fn turns(back: &Back) -> bool {
    !back.walks && !back.entry && u128::from(back.weight) * 5 > u128::from(back.head) * 4
}

fn looped(account: &Account, weight: u64, hottest: u64) -> bool {
    account.loops.iter().any(|head| (head.weight, head.hottest) == (weight, hottest))
}

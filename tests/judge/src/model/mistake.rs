//! The ways in which document 01's rules are easily got wrong.

/// One rule read wrongly.
#[derive(Debug, Clone, Copy, PartialEq, Eq)]
pub enum Mistake {
    /// A goal is the next block on the chain, not the first that is no way through.
    GoalIsOneStep,
    /// An arm moves although its block has an arm to the goal already.
    MovesNextToAnEqual,
    /// A block whose address an instruction names is cleared.
    AddressForgotten,
    /// Cold spreads to the largest set that feeds itself, around loops.
    ColdAroundALoop,
    /// The depth-first order takes the first arm first.
    FirstArmFirst,
    /// The first trace is laid, and the remainder copied as listed.
    OnlyTheFirstTrace,
    /// Without an entry the floors are of no weight at all.
    NoFloorWithoutEntry,
    /// A round's floor is of the hottest block, not of the entry.
    FloorOfTheHottest,
    /// A weight at the floor is not enough.
    FloorToPass,
    /// A start is chosen by weight before the heaviest arm in.
    StartByWeight,
    /// A start may be cold while a warm block is left.
    StartInTheCold,
    /// A start is the latest in the plain order on ties.
    StartAtTheLatest,
    /// A share is compared by multiplying across, which passes the arms of a block of no weight.
    ShareAcross,
    /// A share that is just likely is not enough.
    ShareToPass,
    /// Extending takes the last of tied arms.
    ExtendsByTheLast,
    /// A trace goes on across a cold mark.
    ExtendsAcrossCold,
    /// Rotation takes the first of the last block's tied arms.
    TurnsByTheFirst,
    /// A loop turns when its arm back is exactly four fifths.
    TurnsAtFourFifths,
    /// A loop through a walking block turns.
    TurnsWalking,
    /// A loop is left from a block of three or more arms.
    LeavesFromMany,
    /// A trace counts as an earlier start while it is being turned.
    OwnStartCounts,
    /// A turned trace counts by the block where it was started, not by its first.
    StartsBeforeTurning,
    /// A loop is left by its heaviest exit, wherever that goes.
    LeavesByWeight,
    /// A loop is left by the last of tied exits.
    LeavesByTheLast,
    /// Joining forgets that the longer trace goes first on ties.
    JoinsByRoundOnly,
    /// Joining crosses a cold mark.
    JoinsAcrossCold,
    /// The warm part's last block has the cold part's first as its next.
    FallsAcrossTheSplit,
    /// A bridge is cold because its block is, also where there is no split.
    BridgeLikeItsBlock,
    /// A branch whose arms both go to the next block is exchanged.
    ExchangesEqualArms,
    /// Any arm to its own or an earlier place makes a head.
    HeadWithoutLoop,
    /// The block laid first can be a head.
    FirstIsHead,
    /// Bridges do not count for the hottest.
    HottestWithoutBridges,
    /// A head of exactly a hundredth of the hottest is too light.
    HeadToPass,
    /// The hundredth of the hottest is rounded up.
    HundredthRoundedUp,
}

impl Mistake {
    pub const ALL: [Mistake; 34] = [
        Mistake::GoalIsOneStep,
        Mistake::MovesNextToAnEqual,
        Mistake::AddressForgotten,
        Mistake::ColdAroundALoop,
        Mistake::FirstArmFirst,
        Mistake::OnlyTheFirstTrace,
        Mistake::NoFloorWithoutEntry,
        Mistake::FloorOfTheHottest,
        Mistake::FloorToPass,
        Mistake::StartByWeight,
        Mistake::StartInTheCold,
        Mistake::StartAtTheLatest,
        Mistake::ShareAcross,
        Mistake::ShareToPass,
        Mistake::ExtendsByTheLast,
        Mistake::ExtendsAcrossCold,
        Mistake::TurnsByTheFirst,
        Mistake::TurnsAtFourFifths,
        Mistake::TurnsWalking,
        Mistake::LeavesFromMany,
        Mistake::OwnStartCounts,
        Mistake::StartsBeforeTurning,
        Mistake::LeavesByWeight,
        Mistake::LeavesByTheLast,
        Mistake::JoinsByRoundOnly,
        Mistake::JoinsAcrossCold,
        Mistake::FallsAcrossTheSplit,
        Mistake::BridgeLikeItsBlock,
        Mistake::ExchangesEqualArms,
        Mistake::HeadWithoutLoop,
        Mistake::FirstIsHead,
        Mistake::HottestWithoutBridges,
        Mistake::HeadToPass,
        Mistake::HundredthRoundedUp,
    ];
}

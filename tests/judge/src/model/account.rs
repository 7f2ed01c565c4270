//! What is decided on the way to a layout, so that a test can say of the files tried which
//! decisions they met, and on which side of each line.

/// How likely and how often, round by round, in ten thousandths.
pub const ROUNDS: [(u64, u64); 4] = [(4_000, 5_000), (2_000, 2_000), (1_000, 500), (0, 0)];

/// By which of its keys, counted from 0, something was the greatest; none where it stood alone.
pub type By = Option<usize>;

#[derive(Debug, Default)]
pub struct Account {
    /// Whether the traces give another order than the plain one.
    pub reordered: bool,
    /// What each round asks a weight to be.
    pub floors: Vec<u64>,
    /// The starts that were chosen, which the entry is not.
    pub starts: Vec<Start>,
    /// The arms to unlaid blocks that a trace might have gone on by.
    pub tried: Vec<Tried>,
    /// How often the first of tied arms to different blocks was gone on by.
    pub ties: usize,
    pub traces: Vec<Trace>,
    /// The arms by which a trace's last block goes back into it.
    pub backs: Vec<Back>,
    /// How often the last of tied arms turned a loop that the first would not have turned so, and
    /// how often it kept one that the first would have turned.
    pub turned_by_last: usize,
    pub kept_by_last: usize,
    /// What decided between traces to join: the arm's weight, the trace's length, its place.
    pub joins: Vec<By>,
    /// How often an arm led to a trace that its cold mark kept apart.
    pub apart: usize,
    /// The blocks past first place that stand in a loop as a head does, light ones too.
    pub loops: Vec<Looped>,
}

/// Chosen for its warmth, its heaviest arm in, its weight or its plain place.
#[derive(Debug)]
pub struct Start {
    pub round: usize,
    pub weight: u64,
    pub by: By,
}

#[derive(Debug)]
pub struct Tried {
    pub round: usize,
    pub weight: u64,
    /// The weight of the block that the arm leaves, and the arm's share of it.
    pub whole: u64,
    pub share: u64,
    /// Whether the arm leads across a cold mark.
    pub crosses: bool,
}

#[derive(Debug)]
pub struct Trace {
    pub length: usize,
    pub cold: bool,
}

#[derive(Debug)]
pub struct Back {
    pub weight: u64,
    /// The weight of the block that it goes back to, and whether that is the entry.
    pub head: u64,
    pub entry: bool,
    pub walks: bool,
    /// How the loop can be left, and what decided: the target, the weight, the place.
    pub exits: Vec<Target>,
    pub by: By,
    /// Whether a way out of a block with three arms or more was passed over.
    pub passed_over: bool,
    pub turned: Option<Turned>,
}

/// How much of a trace changed its order.
#[derive(Debug, Clone, Copy, PartialEq, Eq)]
pub enum Turned {
    Whole,
    End,
}

/// Where an exit of a loop goes.
#[derive(Debug, Clone, Copy, PartialEq, Eq)]
pub enum Target {
    Unlaid,
    /// The first block of an earlier trace.
    Start,
    /// The block where an earlier trace was started, which its turning moved from first place.
    TurnedStart,
    /// The first block of the trace itself.
    OwnStart,
    Laid,
}

impl Target {
    /// Whether an exit is preferred for going there.
    #[must_use]
    pub fn preferred(self) -> bool {
        matches!(self, Target::Unlaid | Target::Start)
    }
}

#[derive(Debug)]
pub struct Looped {
    pub weight: u64,
    pub hottest: u64,
}

/// The index of the greatest of some keys, and by which key it beats everything that differs from
/// it in the last one.
pub(super) fn greatest<const N: usize>(keys: &[[u64; N]]) -> Option<(usize, By)> {
    let best = (0..keys.len()).max_by_key(|&at| keys[at])?;
    let others = keys.iter().filter(|key| key[N - 1] != keys[best][N - 1]);
    let by = others.max().and_then(|next| (0..N).find(|&key| keys[best][key] != next[key]));
    Some((best, by))
}

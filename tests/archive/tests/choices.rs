//! `layout_blocks` against the Rust text by all four choices of forward and reorder: all eight
//! numbers of the answer and every lent byte, on generated graphs; and against document 01's
//! refusals on broken files.

use archive::{Caller, Program, in_shares};
use judge::breaker;
use judge::effects::{DECISIONS, EFFECTS};
use judge::generate;
use judge::model::{self, Mistake};
use judge::random::Random;
use judge::reading::{self, Refused};
use judge::records::{Answer, Arm, Block, COLD, Choices, ENTRY, Graph, LONGEST, Laid, RECORD};
use judge::shapes::SHAPES;
use judge::words;
use std::collections::BTreeMap;
use std::sync::LazyLock;

/// Where this test puts the program it makes.
const FOLDER: &str = concat!(env!("CARGO_TARGET_TMPDIR"), "/", env!("CARGO_CRATE_NAME"));

static CALLER: LazyLock<Program> = LazyLock::new(|| Program::made("caller", FOLDER));

/// How many graphs are laid, where LAYOUT_GRAPHS does not ask for another number of them.
const GRAPHS: u64 = 50_000;
/// How many damaged files are tried.
const BROKEN: u64 = 30_000;
/// How often each shape, effect, decision and refusal must be met among them.
const LEAST: usize = 100;

/// The longest result: every block has a bridge, and each bridge has an arm.
const LONGEST_RESULT: usize = LONGEST + 2 * 128 * RECORD;

fn graphs() -> u64 {
    let asked = std::env::var("LAYOUT_GRAPHS");
    asked.map_or(GRAPHS, |count| count.parse().expect("LAYOUT_GRAPHS is a number"))
}

/// Makes one call over lent bytes with a pattern in them, and says what is not as expected.
fn call(
    caller: &mut Caller,
    input: &[u8],
    choices: Choices,
    lent: usize,
    (answer, written): (Answer, Vec<u8>),
) -> Result<(), String> {
    let mut expected: Vec<u8> = (0..lent).map(|at| (at * 7 + 13) as u8).collect();
    let mut out = expected.clone();
    expected[..written.len()].copy_from_slice(&written);
    let found = caller.layout_blocks(input, choices, &mut out);
    if found != answer {
        return Err(format!("with {lent} lent it answers {found:?}, not {answer:?}"));
    }
    match (0..lent).find(|&at| out[at] != expected[at]) {
        Some(at) => Err(format!("with {lent} lent byte {at} is {}, not {}", out[at], expected[at])),
        None => Ok(()),
    }
}

/// Lays a file with the exact room, with a byte too little and with some to spare.
fn compare(
    caller: &mut Caller,
    input: &[u8],
    choices: Choices,
    expected: &Laid,
) -> Result<(), String> {
    let needed = expected.bytes.len();
    let spare = 1 + input.len() % 37;
    for lent in [Some(needed), needed.checked_sub(1), Some(needed + spare)].into_iter().flatten() {
        call(caller, input, choices, lent, reading::given_room(expected.clone(), lent))?;
    }
    Ok(())
}

/// What the layouts of a share met, and the difference on the fewest records, if there was one.
#[derive(Default)]
struct Found {
    met: BTreeMap<&'static str, usize>,
    difference: Option<(usize, String)>,
}

impl Found {
    /// Lays a graph by all four choices.
    fn lay(&mut self, caller: &mut Caller, graph: &Graph, name: &str) {
        let input = graph.bytes();
        self.count(SHAPES.map(|(shape, has)| (shape, has(graph))));
        for choices in Choices::ALL {
            let laid = oracle::lay(graph, choices);
            self.count(EFFECTS.map(|(effect, shows)| (effect, shows(graph, &laid))));
            if choices.reorder {
                let account = model::account(graph, choices);
                self.count(DECISIONS.map(|(decision, made)| (decision, made(&account))));
            }
            if let Err(said) = compare(caller, &input, choices, &laid) {
                let text = words::write(graph);
                let said = format!("{name}, {choices:?}: {said}\n{text}");
                self.keep((input.len() / RECORD, said));
            }
        }
    }

    fn count<const N: usize>(&mut self, asked: [(&'static str, bool); N]) {
        for (name, met) in asked {
            *self.met.entry(name).or_default() += usize::from(met);
        }
    }

    fn keep(&mut self, difference: (usize, String)) {
        let both = self.difference.take().into_iter().chain([difference]);
        self.difference = both.min_by_key(|(records, _)| *records);
    }

    fn add(mut self, other: Found) -> Self {
        for (name, count) in other.met {
            *self.met.entry(name).or_default() += count;
        }
        if let Some(difference) = other.difference {
            self.keep(difference);
        }
        self
    }
}

/// What all shares found, which is no difference.
fn without_difference(share: fn(u64, usize) -> Found) -> BTreeMap<&'static str, usize> {
    let found = in_shares(share).into_iter().fold(Found::default(), Found::add);
    if let Some((_, said)) = found.difference {
        panic!("of all differences that on the fewest records is at {said}");
    }
    found.met
}

/// Lays the graphs of one share of the seeds.
fn lay_share(first: u64, step: usize) -> Found {
    let mut caller = Caller::started(&CALLER);
    let mut found = Found::default();
    for seed in (first..graphs()).step_by(step) {
        found.lay(&mut caller, &generate::graph(seed), &format!("seed {seed}"));
    }
    found
}

#[test]
fn a_graph_is_laid_otherwise_than_by_the_rust() {
    if !oracle::at_hand("the archive's layouts against the Rust's") {
        return;
    }
    let met = without_difference(lay_share);
    for (name, count) in &met {
        println!("{count} times {name}");
    }
    assert_eq!(met.len(), SHAPES.len() + EFFECTS.len() + DECISIONS.len(), "a graph was laid");
    for (name, count) in met {
        assert!(count >= LEAST, "only {count} times {name}");
    }
}

/// Two blocks by a number: with every end, entry or not, cold or not, and every choice of up to two
/// arms each.
fn two_blocks(mut number: u64) -> Graph {
    const WAYS: [&[u8]; 7] = [&[], &[0], &[1], &[0, 0], &[0, 1], &[1, 0], &[1, 1]];
    let mut drawn = |limit: u64| {
        let digit = number % limit;
        number /= limit;
        digit as usize
    };
    let mut graph = Graph::default();
    for number in [0, 1] {
        let marks = [0, ENTRY, COLD, ENTRY | COLD][drawn(4)];
        graph.blocks.push(Block { number, marks, end: drawn(7) as u8, weight: 100 });
        let arm = |&to: &u8| Arm { from: number, to, args: false, weight: 10 };
        graph.arms.extend(WAYS[drawn(7)].iter().map(arm));
    }
    graph
}

/// Lays the accepted ones of one share of those graphs.
fn lay_two_blocks(first: u64, step: usize) -> Found {
    let mut caller = Caller::started(&CALLER);
    let mut found = Found::default();
    for number in (first..(4 * 7 * 7_u64).pow(2)).step_by(step) {
        let graph = two_blocks(number);
        if reading::read(&graph.bytes()).is_ok() {
            found.lay(&mut caller, &graph, &format!("two blocks, {number}"));
        }
    }
    found
}

#[test]
fn two_blocks_are_laid_otherwise_than_by_the_rust() {
    if !oracle::at_hand("all layouts of two blocks") {
        return;
    }
    let met = without_difference(lay_two_blocks);
    for effect in ["arms moved", "a block cleared", "a split", "a branch", "a bridge", "a head"] {
        assert!(met[effect] >= LEAST, "only {} times {effect}", met[effect]);
    }
}

#[test]
fn the_longest_result_is_cut_or_refused() {
    if !oracle::at_hand("the longest result") {
        return;
    }
    let mut caller = Caller::started(&CALLER);
    let graph = generate::most_bridges();
    for choices in Choices::ALL {
        let laid = oracle::lay(&graph, choices);
        assert_eq!((laid.bytes.len(), laid.bridges), (LONGEST_RESULT, 128));
        compare(&mut caller, &graph.bytes(), choices, &laid)
            .unwrap_or_else(|said| panic!("{choices:?}: {said}"));
    }
}

#[test]
fn a_mistaken_layout_passes_for_the_archives() {
    let mut caller = Caller::started(&CALLER);
    for mistake in Mistake::ALL {
        let shows = (0..GRAPHS).any(|seed| {
            let graph = generate::graph(seed);
            let choices = Choices::ALL[seed as usize % 4];
            let laid = model::lay(&graph, choices, Some(mistake));
            compare(&mut caller, &graph.bytes(), choices, &laid).is_err()
        });
        assert!(shows, "{mistake:?} differs from the archive on no graph");
    }
}

/// Tries the damaged files of one share of the seeds, and counts them by refusal.
fn refuse_share(first: u64, step: usize) -> [usize; 10] {
    let mut caller = Caller::started(&CALLER);
    let mut met = [0; 10];
    for seed in (first..BROKEN).step_by(step) {
        let mut random = Random::new(!seed);
        let graph = generate::graph(seed);
        let bytes = match seed % 11 {
            refusal @ 1..=9 => breaker::broken_for(&mut random, &graph, refusal as usize),
            _ => breaker::broken(&mut random, &graph),
        };
        // Now and then a damage leaves a good file.
        let Err(Refused { number, place }) = reading::read(&bytes) else { continue };
        let lent = random.pick(&[0, 1, bytes.len(), LONGEST_RESULT]);
        let expected = (Answer::refused(number, place), Vec::new());
        call(&mut caller, &bytes, random.pick(&Choices::ALL), lent, expected)
            .unwrap_or_else(|said| panic!("file {seed}: {said}"));
        met[number as usize] += 1;
    }
    met
}

#[test]
fn a_broken_file_is_laid_or_refused_wrongly() {
    let met = in_shares(refuse_share).into_iter().fold([0; 10], |met, counted| {
        std::array::from_fn(|refusal| met[refusal] + counted[refusal])
    });
    println!("files by refusal: {met:?}");
    assert!(met[1..].iter().all(|&count| count >= LEAST), "files by refusal: {met:?}");
}

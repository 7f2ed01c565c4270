//! The stored cases, made again: layouts and listings by the Rust text, refusals and write-backs by
//! document 01.

use crate::lay;
use judge::breaker;
use judge::cases::{self, Call, Case, Run};
use judge::generate;
use judge::listing;
use judge::model::{self, Mistake};
use judge::random::Random;
use judge::reading;
use judge::records::{Choices, Graph, LONGEST, MOST_ARMS, RECORD};
use judge::words;
use std::ops::Range;

/// The names of the files.
pub const LAYOUTS: &str = "layouts.txt";
pub const REFUSALS: &str = "refusals.txt";
pub const LISTINGS: &str = "listings.txt";

/// Where the files are kept, as `make-vectors` and the tests find them.
#[must_use]
pub fn folder() -> std::path::PathBuf {
    std::path::Path::new(env!("CARGO_MANIFEST_DIR")).join("../vectors")
}

/// The worked example of document 01.
const WORKED: &str = include_str!("../../../examples/worked.txt");

/// Small graphs that random ones seldom are, by name.
const NAMED: [(&str, &str); 6] = [
    ("worked example", WORKED),
    ("no bytes", ""),
    ("one block", "block 7 marks entry end 1 weight 5"),
    (
        "p5, one move and one block cleared",
        "block 0 marks entry end 1 weight 10
         block 1 marks - end 0 weight 10
         block 2 marks - end 1 weight 10
         arm 0 to 1 weight 10
         arm 1 to 2 weight 10",
    ),
    (
        "p9, a bridge before the split",
        "block 0 marks entry end 2 weight 10
         block 1 marks cold end 1 weight 5
         block 2 marks cold end 1 weight 5
         arm 0 to 1 weight 5
         arm 0 to 2 weight 5",
    ),
    (
        "p10, both arms to the next block",
        "block 0 marks entry end 2 weight 10
         block 1 marks - end 1 weight 10
         arm 0 to 1 weight 5
         arm 0 to 1 weight 5 arguments",
    ),
];

/// Every file of vectors: its name and its text.
#[must_use]
pub fn made() -> [(&'static str, String); 3] {
    [(LAYOUTS, layouts()), (REFUSALS, refusals()), (LISTINGS, listings())]
        .map(|(name, cases)| (name, cases::write(&cases)))
}

fn named() -> impl Iterator<Item = (String, Graph)> {
    NAMED.iter().map(|&(name, text)| {
        (name.to_owned(), words::read(text).expect("the graph is well written"))
    })
}

/// Graphs of so many blocks, at least `least` and fewer than `most`.
fn drawn(name: &str, seeds: Range<u64>, least: usize, most: usize) -> Vec<(String, Graph)> {
    let first = seeds.start;
    let graph = |seed| {
        let mut random = Random::new(seed);
        let size = least + random.below(most - least);
        (format!("{name} {}", seed - first), generate::sized(&mut random, size))
    };
    seeds.map(graph).collect()
}

/// For each rule that is easily got wrong, small graphs of which the mistake changes what is seen.
fn telling<T: PartialEq>(
    count: usize,
    seen: impl Fn(&Graph, Option<Mistake>) -> T,
) -> Vec<(String, Graph)> {
    let mut found = Vec::new();
    for mistake in Mistake::ALL {
        let small = (5_000..).map(generate::graph).filter(|graph| graph.blocks.len() <= 12);
        let shows = |graph: &Graph| seen(graph, Some(mistake)) != seen(graph, None);
        let graphs = small.filter(shows).take(count).enumerate();
        found.extend(graphs.map(|(index, graph)| (format!("{mistake:?} shows, {index}"), graph)));
    }
    found
}

fn layouts() -> Vec<Case> {
    let all = |graph: &Graph, mistake: Option<Mistake>| {
        Choices::ALL.map(|choices| model::lay(graph, choices, mistake))
    };
    let full = (0..2).map(|seed| {
        let graph = generate::full(&mut Random::new(3_000 + seed));
        (format!("128 blocks and 384 arms, {seed}"), graph)
    });
    let graphs = named()
        .chain(drawn("small", 1_000..1_060, 2, 13))
        .chain(drawn("larger", 2_000..2_014, 20, 50))
        .chain(full)
        .chain(telling(3, all));
    let mut cases: Vec<Case> = graphs.map(|(name, graph)| case_of(name, graph.bytes())).collect();
    for case in cases.iter_mut().step_by(5) {
        push_run(case, Call::WriteBack, 1);
        push_run(case, Call::Layout(listing::CHOICES), 1);
    }
    cases
}

/// A file written back and laid by all four choices.
fn case_of(name: String, input: Vec<u8>) -> Case {
    let mut case = Case { name, input, ..Case::default() };
    push_run(&mut case, Call::WriteBack, 0);
    for choices in Choices::ALL {
        push_run(&mut case, Call::Layout(choices), 0);
    }
    case
}

/// Makes a call with as many bytes lent as it needs, less some. Without need of any it is lent 40.
fn push_run(case: &mut Case, call: Call, less: usize) {
    let ample = 3 * LONGEST;
    let needed = expected(&case.input, call, ample).0.written as usize;
    let lent = if needed == 0 { 40 } else { needed - less };
    let (answer, output) = expected(&case.input, call, lent);
    case.runs.push(Run { call, lent, answer, output });
}

/// What a call must answer and write.
pub fn expected(input: &[u8], call: Call, lent: usize) -> (judge::records::Answer, Vec<u8>) {
    match call {
        Call::WriteBack => reading::write_back(input, lent),
        Call::Layout(choices) => reading::answer(input, lent, |graph| lay(graph, choices)),
    }
}

fn refusals() -> Vec<Case> {
    let mut cases = Vec::new();
    for refusal in 1..=9 {
        // Files under 1 and 8 are long, so a few of them must do.
        let found = broken_files(refusal).take(if matches!(refusal, 1 | 8) { 4 } else { 12 });
        for (index, input) in found.enumerate() {
            cases.push(case_of(format!("refusal {refusal}, {index}"), input));
        }
    }
    cases.extend(edge_files().into_iter().map(|(name, input)| case_of(name, input)));
    cases
}

/// Files with what `blocklist` prints for them: other graphs than above, and refused files.
fn listings() -> Vec<Case> {
    let lines = |graph: &Graph, mistake: Option<Mistake>| {
        listing::lines(&model::lay(graph, listing::CHOICES, mistake).bytes)
    };
    let graphs = named()
        .chain(drawn("small", 6_000..6_060, 2, 13))
        .chain(drawn("larger", 7_000..7_012, 20, 50))
        .chain(telling(2, lines));
    let good = graphs.map(|(name, graph)| (name, graph.bytes()));
    let broken = (2..=9).filter(|refusal| *refusal != 8).flat_map(|refusal| {
        let files = broken_files(refusal).skip(12).take(4).enumerate();
        files.map(move |(index, input)| (format!("refusal {refusal}, {index}"), input))
    });
    let files = good.chain(broken).chain(edge_files());
    files.map(|(name, input)| listing_case(name, input)).collect()
}

fn listing_case(name: String, input: Vec<u8>) -> Case {
    let listing = listing::printed(&input, lay);
    Case { name, input, listing, ..Case::default() }
}

/// Small files with a damage that is refused under a number.
fn broken_files(refusal: u64) -> impl Iterator<Item = Vec<u8>> {
    (0..).filter_map(move |seed| {
        let mut random = Random::new(4_000 + 1_000 * refusal + seed);
        let size = 2 + random.below(7);
        let graph = generate::sized(&mut random, size);
        let bytes = breaker::broken_for(&mut random, &graph, refusal as usize);
        let short = refusal == 1 || refusal == 8 || bytes.len() <= 20 * RECORD;
        let refused = reading::read(&bytes).is_err_and(|found| found.number == refusal);
        (short && refused && bytes.len() <= 2 * LONGEST).then_some(bytes)
    })
}

/// Both sides of the limits that are not met above.
fn edge_files() -> Vec<(String, Vec<u8>)> {
    let mut full = generate::full(&mut Random::new(5)).bytes();
    let mut files = vec![("8,192 bytes".to_owned(), full.clone())];
    full.resize(LONGEST + RECORD, 0);
    files.push(("8,208 bytes".to_owned(), full));
    for arms in [MOST_ARMS, MOST_ARMS + 1] {
        let text = "block 3 marks entry end 3 weight 1\n".to_owned()
            + &"arm 3 to 3 weight 1\n".repeat(arms);
        let graph = words::read(&text).expect("the graph is well written");
        files.push((format!("{arms} arms"), graph.bytes()));
    }
    let worked = words::read(WORKED).expect("the example is well written").bytes();
    files.extend((0..=40).map(|len| {
        (format!("the first {len} bytes of the worked example"), worked[..len].to_vec())
    }));
    files
}

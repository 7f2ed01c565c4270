//! `layout_write_back` against the reading of document 01: all eight numbers of the answer and
//! every lent byte, on good and broken files.

use archive::{Caller, Program, in_shares};
use judge::breaker;
use judge::generate;
use judge::random::Random;
use judge::reading;
use judge::records::{Answer, Graph, LONGEST, MOST_ARMS, RECORD};
use std::sync::LazyLock;

/// Where this test puts the program it makes.
const FOLDER: &str = concat!(env!("CARGO_TARGET_TMPDIR"), "/", env!("CARGO_CRATE_NAME"));

static CALLER: LazyLock<Program> = LazyLock::new(|| Program::made("caller", FOLDER));

/// How many files are compared, and how often each refusal must be met among them.
const FILES: u64 = 100_000;
const LEAST: usize = 50;

/// Calls the archive over lent bytes with a pattern in them, compares, and gives the answer.
fn compare(caller: &mut Caller, input: &[u8], lent: usize, what: &str) -> Answer {
    let pattern = |at: usize| (at * 7 + 13) as u8;
    let mut out: Vec<u8> = (0..lent).map(pattern).collect();
    let found = caller.write_back(input, &mut out);
    let (expected, written) = reading::write_back(input, lent);
    assert_eq!(found, expected, "{what}, {} bytes, {lent} lent", input.len());
    assert!(out.starts_with(&written), "{what}: other bytes were written");
    let kept = (written.len()..lent).all(|at| out[at] == pattern(at));
    assert!(kept, "{what}: a lent byte past the written ones changed");
    found
}

/// A file by its number: good ones, and broken ones with each refusal in turn.
fn file(seed: u64) -> (Vec<u8>, usize) {
    let graph = generate::graph(seed);
    let mut random = Random::new(!seed);
    let bytes = match seed % 20 {
        refusal @ 1..=9 => breaker::broken_for(&mut random, &graph, refusal as usize),
        10 | 11 => breaker::broken(&mut random, &graph),
        _ => graph.bytes(),
    };
    let spare = random.pick(&[0, 0, 1, 16, 500]);
    let lent = if random.chance(90) { bytes.len() + spare } else { random.below(bytes.len() + 1) };
    (bytes, lent)
}

/// Compares the files of one share of the seeds, and counts the answers by refusal.
fn compare_share(first: u64, shares: usize) -> [usize; 11] {
    let mut caller = Caller::started(&CALLER);
    let mut met = [0; 11];
    for seed in (first..FILES).step_by(shares) {
        let (bytes, lent) = file(seed);
        let answer = compare(&mut caller, &bytes, lent, &format!("file {seed}"));
        met[answer.refusal as usize] += 1;
    }
    met
}

#[test]
fn a_file_is_answered_or_written_wrongly() {
    let met = in_shares(compare_share).into_iter().fold([0; 11], |met, counted| {
        std::array::from_fn(|refusal| met[refusal] + counted[refusal])
    });
    println!("answers by refusal: {met:?}");
    assert!(met.iter().all(|&count| count >= LEAST), "answers by refusal: {met:?}");
}

#[test]
fn a_file_of_any_bytes_is_answered_wrongly() {
    let mut caller = Caller::started(&CALLER);
    let mut random = Random::new(1);
    for round in 0..20_000 {
        let length = random.below(10) * RECORD;
        let small = |random: &mut Random| random.byte() % random.pick(&[2, 3, 4, 255]);
        let bytes: Vec<u8> = (0..length).map(|_| small(&mut random)).collect();
        compare(&mut caller, &bytes, length, &format!("any bytes {round}"));
    }
}

#[test]
fn a_short_file_is_answered_wrongly() {
    let mut caller = Caller::started(&CALLER);
    let good = generate::sized(&mut Random::new(3), 20).bytes();
    for length in 0..=40 {
        for lent in 0..=length + 1 {
            compare(&mut caller, &good[..length], lent, "the front of a good file");
            compare(&mut caller, &vec![0; length], lent, "zeros");
            compare(&mut caller, &vec![1; length], lent, "ones");
        }
    }
}

#[test]
fn the_longest_file_is_refused_or_a_longer_one_is_not() {
    let mut caller = Caller::started(&CALLER);
    let mut random = Random::new(4);
    let full = generate::full(&mut random);
    let bytes = full.bytes();
    assert_eq!((bytes.len(), full.blocks.len(), full.arms.len()), (LONGEST, 128, 384));
    assert_eq!(compare(&mut caller, &bytes, LONGEST, "8,192 bytes").refusal, 0);
    for over in [1, 15, 16, 17, 32, LONGEST] {
        let mut longer = bytes.clone();
        longer.resize(LONGEST + over, 0);
        assert_eq!(compare(&mut caller, &longer, longer.len(), "a longer file").refusal, 1);
    }
}

/// A graph of `blocks` blocks whose last one has so many arms.
fn many_arms(blocks: usize, arms: usize) -> Graph {
    let mut text: String =
        (0..blocks).map(|number| format!("block {number} marks - end 4 weight 1\n")).collect();
    let last = blocks - 1;
    text += &format!("arm {last} to 0 weight 2\n").repeat(arms);
    judge::words::read(&text).expect("the graph is well written")
}

#[test]
fn the_384th_arm_is_refused_or_the_385th_is_not() {
    let mut caller = Caller::started(&CALLER);
    for blocks in [1, 2, 127] {
        let most = many_arms(blocks, MOST_ARMS).bytes();
        assert_eq!(compare(&mut caller, &most, most.len(), "384 arms").refusal, 0);
        let over = many_arms(blocks, MOST_ARMS + 1).bytes();
        let answer = compare(&mut caller, &over, over.len(), "385 arms");
        assert_eq!((answer.refusal, answer.place), (8, (blocks + MOST_ARMS) as u64));
    }
}

#[test]
fn room_of_one_byte_more_or_less_is_judged_wrongly() {
    let mut caller = Caller::started(&CALLER);
    for seed in 0..2_000 {
        let bytes = generate::graph(seed).bytes();
        let needed = bytes.len();
        assert_eq!(compare(&mut caller, &bytes, needed, "the exact room").written, needed as u64);
        assert_eq!(compare(&mut caller, &bytes, needed + 1, "a byte more").written, needed as u64);
        if needed > 0 {
            let answer = compare(&mut caller, &bytes, needed - 1, "a byte less");
            assert_eq!((answer.refusal, answer.needed), (10, needed as u64));
            assert_eq!(compare(&mut caller, &bytes, 0, "no room").refusal, 10);
        }
    }
}

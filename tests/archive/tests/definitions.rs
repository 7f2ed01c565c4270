//! The definitions that the contracts cite, on the stored vectors: the prover itself computes what
//! they say and holds it to what the Rust, or document 01, gave. The Rust text is not needed here.

use archive::repository;
use judge::cases::{self, Call, Case, Run};
use judge::records::{Choices, RECORD};
use std::path::{Path, PathBuf};
use std::process::Command;
use std::{env, fs, process};

/// The crates that hold the definitions, lowest first.
const CRATES: [&str; 3] = ["limits", "lists", "rules"];

/// Files of at most so many records, and every so-manieth call or listing, to end in seconds.
const MOST_RECORDS: usize = 24;
const EVERY: usize = 4;

/// What has to be opened for a call to be computed, module by module.
const OPENED: [(&str, &str); 8] = [
    ("Lists", "pick"),
    ("Graph", "is_entry"),
    (
        "Records",
        "gap_zero block_of arm_of record_of fields block_bytes arm_bytes record_at before records \
         leaving arms_of listing blocks_of graph_of blocks_bytes leaving_bytes arms_bytes written",
    ),
    (
        "Refusals",
        "place_of entry_of arm_count last_of listed record_checks all_checks too_many panic_checks \
         checks fine first verdict",
    ),
    ("Forward", "moves"),
    ("Laid", "layout split_of laid_bytes"),
    ("Outcome", "refusal refused written_back back_of write_back laid layout_of layout_blocks"),
    (
        "Listing",
        "digits decimal line letter place_line place_lines split_line refusal_line listing_of \
         blocklist",
    ),
];

/// The small files among the stored ones of that name.
fn stored(name: &str) -> impl Iterator<Item = Case> {
    let path = repository().join("tests/vectors").join(name);
    let text = fs::read_to_string(path).expect("the vectors are in the repository");
    let cases = cases::read(&text).expect("the vectors are of their form");
    cases.into_iter().filter(|case| case.input.len() <= MOST_RECORDS * RECORD)
}

/// The calls on small files, each with its file.
fn small() -> Vec<(Vec<u8>, Run)> {
    let calls = |case: Case| case.runs.into_iter().map(move |run| (case.input.clone(), run));
    let cases = stored("layouts.txt").chain(stored("refusals.txt"));
    cases.flat_map(calls).step_by(EVERY).collect()
}

fn list(bytes: &[u8]) -> String {
    let elements: String = bytes.iter().map(|byte| format!("{byte} ∷ ")).collect();
    format!("({elements}[])")
}

/// A call as a theorem: the outcome is what is stored, and the prover is to see it by computing.
fn theorem(index: usize, input: &[u8], run: &Run) -> String {
    let call = match run.call {
        Call::WriteBack => "write_back".to_owned(),
        Call::Layout(Choices { forward, reorder }) => format!("layout_blocks {forward} {reorder}"),
    };
    let lent = vec![0xee; run.lent];
    let mut after = lent.clone();
    after[..run.output.len()].copy_from_slice(&run.output);
    let names = ["refusal", "place", "needed", "written", "blocks", "bridges", "moved", "split"];
    let fields: String = names
        .iter()
        .zip(run.answer.numbers())
        .map(|(name, number)| format!("{name} = {number}; "))
        .collect();
    let (input, lent, after) = (list(input), list(&lent), list(&after));
    let outcome = format!("record {{ answer = record {{ {fields}}}; lent = {after} }}");
    computed(&format!("call_{index}"), &format!("{call} {input} {lent}"), &outcome)
}

/// A listing as a theorem.
fn listing_theorem(index: usize, case: &Case) -> String {
    let (input, printed) = (list(&case.input), list(case.listing.as_bytes()));
    computed(&format!("listing_{index}"), &format!("blocklist {input}"), &printed)
}

fn computed(name: &str, term: &str, value: &str) -> String {
    let opened = OPENED.map(|(_, names)| names).join(" ");
    format!("{name} : {term} ≡ {value}\nunfolding {opened}\n{name} = refl\n\n")
}

fn uses() -> String {
    let module = |(module, names): (&str, &str)| {
        format!("use Rattle.rules.specs.{module}.{{{}}}\n", names.replace(' ', ", "))
    };
    let rules: String = OPENED.map(module).concat();
    format!(
        "use mathlib.Core.Path.{{◌≡◌, refl}}\nuse mathlib.Core.Bool.{{true, false}}\n\
         use mathlib.Core.List.{{List, [], ◌∷◌}}\n{rules}\n"
    )
}

fn copied(from: &Path, to: &Path) {
    fs::create_dir_all(to).expect("the folder can be made");
    for entry in fs::read_dir(from).expect("the folder is there") {
        let path = entry.expect("the folder can be read").path();
        let target = to.join(path.file_name().expect("an entry has a name"));
        if path.is_dir() {
            copied(&path, &target);
        } else {
            fs::copy(&path, &target).expect("the file can be copied");
        }
    }
}

/// A repository of the definitions and one crate more, whose theorems are asked for. It lies outside
/// of ours, where `rt ci` refuses such files, and goes with this value.
struct Made(PathBuf);

impl Made {
    fn of(name: &str, theorems: &str) -> Self {
        let folder = env::temp_dir().join(format!("{name}-{}", process::id()));
        for name in CRATES {
            for part in ["src", "specs", "proofs"] {
                let inside = Path::new("crates").join(name).join(part);
                let from = repository().join(&inside);
                if from.is_dir() {
                    copied(&from, &folder.join(&inside));
                }
            }
        }
        let own = folder.join("crates/stored");
        for part in ["src", "proofs"] {
            fs::create_dir_all(own.join(part)).expect("the folder can be made");
        }
        let put = |file, text: &str| fs::write(file, text).expect("the file can be written");
        put(own.join("src/lib.rt"), "// Theorems alone.\n#![tactic(auto)]\n");
        put(own.join("proofs/Lib.antt"), "mod Stored\n");
        put(own.join("proofs/Stored.antt"), &(uses() + theorems));
        let list = "limits:\nlists: limits\nrules: limits lists\nstored: limits lists rules\n";
        put(folder.join("crates.txt"), list);
        Made(folder)
    }

    /// Whether the prover proves them, and what it says.
    fn proved(&self) -> (bool, String) {
        let check =
            Command::new("rt").arg("check").current_dir(self.0.join("crates/stored")).output();
        let output = check.expect("rt is on the path");
        (output.status.success(), String::from_utf8_lossy(&output.stdout).into_owned())
    }
}

impl Drop for Made {
    fn drop(&mut self) {
        fs::remove_dir_all(&self.0).expect("the folder can be removed");
    }
}

#[test]
fn the_definitions_say_something_else_than_the_vectors() {
    let calls = small();
    for choices in Choices::ALL {
        let laid = calls.iter().filter(|(_, run)| run.call == Call::Layout(choices)).count();
        println!("{laid} calls computed by {choices:?}");
        assert!(laid >= 50, "{laid} calls by {choices:?} are too few");
    }
    let listings: Vec<Case> = stored("listings.txt").step_by(EVERY).collect();
    println!("{} listings computed", listings.len());
    assert!(listings.len() >= 40, "{} listings are too few", listings.len());
    let calls = calls.iter().enumerate().map(|(index, (input, run))| theorem(index, input, run));
    let listings = listings.iter().enumerate().map(|(index, case)| listing_theorem(index, case));
    let (good, said) = Made::of("definitions", &calls.chain(listings).collect::<String>()).proved();
    assert!(good, "{said}");
}

#[test]
fn the_prover_takes_a_wrong_number_for_right() {
    let (input, mut run) = small().swap_remove(0);
    run.answer.blocks += 1;
    let (good, said) = Made::of("mistaken", &theorem(0, &input, &run)).proved();
    assert!(!good, "a stored answer with one block more was proved");
    assert!(said.contains("error: `call_0`"), "it was refused for something else: {said}");
}

//! `blocklist` as a program: what it prints for the stored files, the examples and some files that
//! are too long or too short. The Rust text is not needed here.

use archive::{Program, repository};
use judge::cases::{self, Case};
use judge::examples;
use judge::records::LONGEST;
use std::fs;
use std::io::{ErrorKind, Write};
use std::process::{ChildStdin, Stdio};
use std::sync::LazyLock;

static BLOCKLIST: LazyLock<Program> = LazyLock::new(Program::blocklist);

/// Document 01's listing of its worked example.
const WORKED: &str = "0 B 0 10000 W - - 1\n1 B 2 90000 W H L 0\n2 B 1 100000 W - L 2\n\
                      3 B 3 10000 W - - 0\nsplit none\n";

/// Writes a file in pieces. A program that has read all that it will has closed its end.
fn give(mut to: ChildStdin, input: &[u8], piece: usize) {
    for piece in input.chunks(piece) {
        match to.write_all(piece) {
            Err(error) if error.kind() == ErrorKind::BrokenPipe => return,
            written => written.expect("the program takes its input"),
        }
    }
}

/// What the program prints for a file that comes in pieces of so many bytes.
fn printed_in(input: &[u8], piece: usize) -> String {
    let mut command = BLOCKLIST.command();
    command.stdin(Stdio::piped()).stdout(Stdio::piped()).stderr(Stdio::piped());
    let mut process = command.spawn().expect("the program starts");
    give(process.stdin.take().expect("its input is a pipe"), input, piece);
    let output = process.wait_with_output().expect("the program ends");
    assert!(output.status.code().is_some(), "the program was ended by {}", output.status);
    assert_eq!(String::from_utf8_lossy(&output.stderr), "", "nothing else is said");
    String::from_utf8(output.stdout).expect("a listing is text")
}

fn printed(input: &[u8]) -> String {
    printed_in(input, LONGEST)
}

fn stored() -> Vec<Case> {
    let path = repository().join("tests/vectors/listings.txt");
    let text = fs::read_to_string(path).expect("the listings are in the repository");
    cases::read(&text).expect("the listings are of their form")
}

#[test]
fn a_stored_file_is_listed_otherwise() {
    let (mut laid, mut refused) = (0, [0; 10]);
    for Case { name, input, listing, .. } in stored() {
        assert_eq!(printed(&input), listing, "{name}");
        match listing.strip_prefix("refused ").and_then(|rest| rest.chars().next()) {
            Some(digit) => refused[digit as usize - '0' as usize] += 1,
            None => laid += 1,
        }
    }
    println!("{laid} listings, refused by number: {refused:?}");
    assert!(laid >= 150, "only {laid} listings");
    assert!(refused[1..].iter().all(|&count| count >= 1), "refused by number: {refused:?}");
}

#[test]
fn an_example_is_listed_otherwise() {
    for name in examples::names("rec") {
        let input = fs::read(name.with_extension("rec")).expect("the records can be read");
        let listing = fs::read_to_string(name.with_extension("list")).expect("it has a listing");
        assert_eq!(printed(&input), listing, "{name:?}");
    }
}

#[test]
fn the_worked_example_is_not_listed_as_in_document_01() {
    let input = fs::read(examples::folder().join("worked.rec")).expect("the example is there");
    for piece in [1, 7, 16, 100, 128] {
        assert_eq!(printed_in(&input, piece), WORKED, "in pieces of {piece} bytes");
    }
}

#[test]
fn a_file_of_some_length_is_listed_or_refused_otherwise() {
    assert_eq!(printed(&[]), "split none\n");
    for length in [1, 15, 17, 8_191] {
        assert_eq!(printed(&vec![0; length]), "refused 2 at 0\n", "{length} bytes");
    }
    assert_eq!(printed(&[0; LONGEST]), "refused 3 at 0\n");
    for length in [LONGEST + 1, LONGEST + 16, 2 * LONGEST, 1 << 16, 1 << 20] {
        assert_eq!(printed(&vec![0; length]), "refused 1 at 0\n", "{length} bytes");
    }
}

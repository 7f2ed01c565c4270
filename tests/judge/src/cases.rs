//! Stored cases: a file, what `blocklist` must print for it, and the calls made on it with what
//! each must answer and write.
//!
//! The form is text with one record to a line, so that a change shows as the records it changed:
//!
//! ```text
//! file a name
//! > 01000101000000001027000000000000      sixteen bytes of the input, the last line perhaps fewer
//! | 0 B 0 10000 W - - 0                   a line that is printed
//! run write-back lent 128                 or: run layout forward yes reorder no lent 128
//! = 0 0 0 128 4 0 0 256                   the answer's eight numbers
//! < 01000101000000001027000000000000      the bytes written; lent bytes behind them are kept
//! ```

use crate::records::{Answer, Choices, RECORD};
use std::fmt::Write;

#[derive(Debug, Clone, Copy, PartialEq, Eq)]
pub enum Call {
    WriteBack,
    Layout(Choices),
}

#[derive(Debug, Clone, PartialEq, Eq)]
pub struct Run {
    pub call: Call,
    pub lent: usize,
    pub answer: Answer,
    pub output: Vec<u8>,
}

#[derive(Debug, Clone, PartialEq, Eq, Default)]
pub struct Case {
    pub name: String,
    pub input: Vec<u8>,
    /// Whole lines, or nothing where the case is of calls alone.
    pub listing: String,
    pub runs: Vec<Run>,
}

/// Cases as text.
#[must_use]
pub fn write(cases: &[Case]) -> String {
    let mut text = String::new();
    for case in cases {
        text += &format!("file {}\n", case.name);
        write_bytes(&mut text, '>', &case.input);
        text.extend(case.listing.lines().map(|line| format!("| {line}\n")));
        for run in &case.runs {
            text += &format!("run {} lent {}\n", write_call(run.call), run.lent);
            let numbers = run.answer.numbers().map(|number| number.to_string());
            text += &format!("= {}\n", numbers.join(" "));
            write_bytes(&mut text, '<', &run.output);
        }
    }
    text
}

fn write_call(call: Call) -> String {
    let word = |choice: bool| if choice { "yes" } else { "no" };
    match call {
        Call::WriteBack => "write-back".to_owned(),
        Call::Layout(Choices { forward, reorder }) => {
            format!("layout forward {} reorder {}", word(forward), word(reorder))
        }
    }
}

fn write_bytes(text: &mut String, sign: char, bytes: &[u8]) {
    for record in bytes.chunks(RECORD) {
        text.push(sign);
        text.push(' ');
        for byte in record {
            write!(text, "{byte:02x}").expect("a string takes any text");
        }
        text.push('\n');
    }
}

/// The cases that a text holds, or the first line that is not of the form.
pub fn read(text: &str) -> Result<Vec<Case>, String> {
    let mut cases = Vec::new();
    for (index, line) in text.lines().enumerate() {
        if take(&mut cases, line).is_none() {
            return Err(format!("line {} is not of the form: {line}", index + 1));
        }
    }
    Ok(cases)
}

fn take(cases: &mut Vec<Case>, line: &str) -> Option<()> {
    let (sign, rest) = line.split_once(' ')?;
    if sign == "file" {
        cases.push(Case { name: rest.to_owned(), ..Case::default() });
        return Some(());
    }
    let case = cases.last_mut()?;
    match sign {
        ">" => case.input.extend(read_bytes(rest)?),
        "|" => case.listing.extend([rest, "\n"]),
        "run" => case.runs.push(read_run(rest)?),
        "=" => case.runs.last_mut()?.answer = read_answer(rest)?,
        "<" => case.runs.last_mut()?.output.extend(read_bytes(rest)?),
        _ => return None,
    }
    Some(())
}

fn read_run(text: &str) -> Option<Run> {
    let words: Vec<&str> = text.split(' ').collect();
    let choice = |word: &str| match word {
        "yes" => Some(true),
        "no" => Some(false),
        _ => None,
    };
    let (call, lent) = match words[..] {
        ["write-back", "lent", lent] => (Call::WriteBack, lent),
        ["layout", "forward", forward, "reorder", reorder, "lent", lent] => {
            let choices = Choices { forward: choice(forward)?, reorder: choice(reorder)? };
            (Call::Layout(choices), lent)
        }
        _ => return None,
    };
    let lent = lent.parse().ok()?;
    Some(Run { call, lent, answer: Answer::default(), output: Vec::new() })
}

fn read_answer(text: &str) -> Option<Answer> {
    let numbers: Option<Vec<u64>> = text.split(' ').map(|word| word.parse().ok()).collect();
    Some(Answer::from_numbers(numbers?.try_into().ok()?))
}

fn read_bytes(text: &str) -> Option<Vec<u8>> {
    let digits = text.as_bytes();
    let pairs = digits.chunks(2).map(|pair| std::str::from_utf8(pair).ok());
    pairs.map(|pair| u8::from_str_radix(pair?, 16).ok()).collect()
}

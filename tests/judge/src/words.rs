//! Records as lines that a person can read and write.
//!
//! A line is a block (`block 1 marks entry,cold end 2 weight 100000`, with `-` for no marks) or an
//! arm (`arm 1 to 2 weight 90000`, with `arguments` behind it where it carries some). Empty lines
//! and what follows `#` say nothing.

use crate::records::{Arm, Block, Graph};

/// The names of the marks, by bit.
const MARKS: [&str; 7] = ["entry", "cold", "dead-end", "parameters", "named", "address", "walking"];

/// The records that a text says, or the first line that says none.
pub fn read(text: &str) -> Result<Graph, String> {
    let mut graph = Graph::default();
    for (index, line) in text.lines().enumerate() {
        let said = line.split('#').next().unwrap_or_default();
        let words: Vec<&str> = said.split_whitespace().collect();
        if !words.is_empty() && take(&mut graph, &words).is_none() {
            return Err(format!("line {} is neither a block nor an arm: {line}", index + 1));
        }
    }
    Ok(graph)
}

fn take(graph: &mut Graph, words: &[&str]) -> Option<()> {
    match *words {
        ["block", number, "marks", marks, "end", end, "weight", weight] => {
            let (number, end) = (number.parse().ok()?, end.parse().ok()?);
            let (marks, weight) = (read_marks(marks)?, weight.parse().ok()?);
            graph.blocks.push(Block { number, marks, end, weight });
        }
        ["arm", from, "to", to, "weight", weight, ref rest @ ..] => {
            let args = match *rest {
                [] => false,
                ["arguments"] => true,
                _ => return None,
            };
            let (from, to) = (from.parse().ok()?, to.parse().ok()?);
            graph.arms.push(Arm { from, to, args, weight: weight.parse().ok()? });
        }
        _ => return None,
    }
    Some(())
}

fn read_marks(word: &str) -> Option<u8> {
    if word == "-" {
        return Some(0);
    }
    word.split(',').try_fold(0, |marks, name| {
        let bit = MARKS.iter().position(|mark| *mark == name)?;
        Some(marks | 1 << bit)
    })
}

/// The lines that say a graph, in the form that [`read`] takes.
#[must_use]
pub fn write(graph: &Graph) -> String {
    let mut text = String::new();
    for Block { number, marks, end, weight } in &graph.blocks {
        let marks = write_marks(*marks);
        text += &format!("block {number} marks {marks} end {end} weight {weight}\n");
    }
    for Arm { from, to, args, weight } in &graph.arms {
        let args = if *args { " arguments" } else { "" };
        text += &format!("arm {from} to {to} weight {weight}{args}\n");
    }
    text
}

fn write_marks(marks: u8) -> String {
    let names: Vec<&str> =
        (0..).zip(MARKS).filter(|(bit, _)| marks >> bit & 1 == 1).map(|(_, name)| name).collect();
    if names.is_empty() { "-".to_owned() } else { names.join(",") }
}

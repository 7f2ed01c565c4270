//! The reading of document 01 is judged here, on files written by hand with the number and place
//! that the document gives them.

use judge::reading::{self, Refused};
use judge::records::{Answer, RECORD, record};

type Record = [u8; RECORD];

fn block(number: u8, marks: u8, end: u8) -> Record {
    record([1, number, marks, end], 7)
}

fn arm(from: u8, to: u8) -> Record {
    record([2, from, to, 0], 7)
}

/// The record with one byte changed.
fn with(mut record: Record, at: usize, byte: u8) -> Record {
    record[at] = byte;
    record
}

/// The refusal's number and place; 0 and 0 for none.
fn judged(records: &[Record]) -> (u64, u64) {
    match reading::read(&records.concat()) {
        Ok(_) => (0, 0),
        Err(Refused { number, place }) => (number, place),
    }
}

#[test]
fn a_length_is_judged_wrongly() {
    let length = |length: usize| reading::read(&vec![0; length]).map_err(|found| found.number);
    assert!(length(0).is_ok());
    assert_eq!(length(1), Err(2));
    assert_eq!(length(16), Err(3));
    assert_eq!(length(8_191), Err(2));
    assert_eq!(length(8_192), Err(3));
    assert_eq!(length(8_193), Err(1));
    assert_eq!(length(8_208), Err(1));
}

#[test]
fn a_field_is_judged_wrongly() {
    let good = block(127, 127, 6);
    assert_eq!(judged(&[good]), (0, 0));
    for (at, byte) in [(0, 0), (0, 3), (1, 128), (2, 128), (3, 7), (4, 1), (5, 1), (6, 1), (7, 1)] {
        assert_eq!(judged(&[with(good, at, byte)]), (3, 0), "byte {at} is {byte}");
    }
    let first = block(0, 0, 1);
    assert_eq!(judged(&[first, with(arm(0, 0), 3, 1)]), (0, 0));
    for (at, byte) in [(3, 2), (4, 1), (5, 255), (6, 1), (7, 1)] {
        assert_eq!(judged(&[first, with(arm(0, 0), at, byte)]), (3, 1), "byte {at} is {byte}");
    }
}

#[test]
fn a_record_is_refused_for_the_wrong_reason() {
    let (zero, one) = (block(0, 0, 3), block(1, 0, 3));
    assert_eq!(judged(&[zero, arm(0, 0), one]), (4, 2));
    assert_eq!(judged(&[zero, one, arm(1, 0), arm(0, 1)]), (4, 3));
    assert_eq!(judged(&[zero, one, zero]), (5, 2));
    assert_eq!(judged(&[block(0, 1, 1), one, block(2, 1, 1)]), (6, 2));
    assert_eq!(judged(&[zero, arm(0, 1)]), (7, 1));
    assert_eq!(judged(&[zero, arm(1, 0)]), (7, 1));
    assert_eq!(judged(&[zero, arm(0, 200)]), (7, 1));
    assert_eq!(judged(&[arm(0, 0), zero]), (7, 0));
    let mut many = vec![zero];
    many.resize(385, arm(0, 0));
    assert_eq!(judged(&many), (0, 0));
    many.push(arm(0, 0));
    assert_eq!(judged(&many), (8, 385));
}

#[test]
fn of_two_reasons_the_wrong_one_is_given() {
    let (zero, one, entry) = (block(0, 0, 3), block(1, 0, 3), block(0, 1, 3));
    // Blocks by 3, 4, 5, 6.
    assert_eq!(judged(&[zero, arm(0, 0), with(zero, 3, 9)]), (3, 2));
    assert_eq!(judged(&[entry, arm(0, 0), entry]), (4, 2));
    assert_eq!(judged(&[entry, entry]), (5, 1));
    // Arms by 3, 7, 4, 8.
    assert_eq!(judged(&[zero, with(arm(9, 9), 3, 2)]), (3, 1));
    assert_eq!(judged(&[zero, one, arm(1, 1), arm(0, 9)]), (7, 3));
    let mut many = vec![zero, one];
    many.resize(386, arm(1, 0));
    many.push(arm(0, 0));
    assert_eq!(judged(&many), (4, 386));
    // The earlier record before the worse one, and records before refusal 9.
    assert_eq!(judged(&[zero, zero, with(one, 0, 9)]), (5, 1));
    assert_eq!(judged(&[block(0, 0, 1), arm(0, 0), arm(0, 0), arm(0, 5)]), (7, 3));
}

#[test]
fn refusal_9_is_on_the_wrong_side_of_a_count() {
    for end in 0..=6 {
        let counts = (0..=4).map(|arms| {
            let mut records = vec![block(3, 0, 4), block(5, 0, end)];
            records.extend(vec![arm(5, 3); arms]);
            judged(&records)
        });
        let most = [1, 1, 2, 4, 4, 4, 2][usize::from(end)];
        let expected = (0..=4).map(|arms| if arms <= most { (0, 0) } else { (9, 1) });
        assert!(counts.eq(expected), "end {end}");
    }
    // The first such block as listed, whatever its number.
    let (late, early) = (block(9, 0, 0), block(2, 0, 1));
    let arms = [arm(9, 9), arm(9, 9), arm(2, 2), arm(2, 2)];
    assert_eq!(judged(&[&[block(7, 0, 4), late, early], &arms[..]].concat()), (9, 1));
}

#[test]
fn a_refused_or_a_good_answer_has_a_wrong_field() {
    let bytes = [block(4, 0, 1), arm(4, 4)].concat();
    let numbers = |lent: usize| {
        let (answer, written): (Answer, Vec<u8>) = reading::write_back(&bytes, lent);
        (answer.numbers(), written.len())
    };
    assert_eq!(numbers(32), ([0, 0, 0, 32, 1, 0, 0, 256], 32));
    assert_eq!(numbers(33), ([0, 0, 0, 32, 1, 0, 0, 256], 32));
    assert_eq!(numbers(31), ([10, 0, 32, 0, 0, 0, 0, 0], 0));
    let (refused, written) = reading::write_back(&bytes[..31], 0);
    assert_eq!((refused.numbers(), written.len()), ([2, 0, 0, 0, 0, 0, 0, 0], 0));
    assert_eq!(reading::write_back(&[], 0).0.numbers(), [0, 0, 0, 0, 0, 0, 0, 256]);
}

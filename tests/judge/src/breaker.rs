//! Good files damaged, so that every refusal is reached, each in several ways.

// All damages have one type, whether they change the length of a file or not.
#![allow(clippy::ptr_arg)]

use crate::random::Random;
use crate::records::{ARM, BLOCK, ENTRY, Graph, HEAD, LONGEST, MOST_ARMS, RECORD};

/// One way to damage the bytes of a file. Where a file has nothing to damage so, it is left.
type Damage = fn(&mut Random, &mut Vec<u8>);

/// The damages, by the refusal that each is made for; the last two are made for none.
const DAMAGES: [Damage; 13] = [
    too_long,
    not_whole,
    bad_field,
    bad_kind,
    block_after_arm,
    arms_out_of_order,
    number_twice,
    second_entry,
    not_listed,
    too_many_arms,
    panicking_end,
    any_byte,
    records_exchanged,
];

/// The damages for one refusal, so that each can be met often. Refusal 10 needs no damage.
const FOR: [&[Damage]; 9] = [
    &[too_long],
    &[not_whole],
    &[bad_field, bad_kind],
    &[block_after_arm, arms_out_of_order],
    &[number_twice],
    &[second_entry],
    &[not_listed],
    &[too_many_arms],
    &[panicking_end],
];

/// The bytes of a graph with one or more damages.
#[must_use]
pub fn broken(random: &mut Random, graph: &Graph) -> Vec<u8> {
    let mut bytes = graph.bytes();
    let damages = random.pick(&[1, 1, 1, 2, 3]);
    for _ in 0..damages {
        random.pick(&DAMAGES)(random, &mut bytes);
    }
    bytes
}

/// The bytes of a graph with one damage made for a refusal, 1 to 9.
#[must_use]
pub fn broken_for(random: &mut Random, graph: &Graph, refusal: usize) -> Vec<u8> {
    let mut bytes = graph.bytes();
    random.pick(FOR[refusal - 1])(random, &mut bytes);
    bytes
}

fn count(bytes: &[u8]) -> usize {
    bytes.len() / RECORD
}

/// The indices of the records of a kind.
fn of_kind(bytes: &[u8], kind: u8) -> Vec<usize> {
    (0..count(bytes)).filter(|&index| bytes[index * RECORD] == kind).collect()
}

/// Where a byte of one of the records of a kind stands.
fn byte_of(random: &mut Random, bytes: &[u8], kind: u8, byte: usize) -> Option<usize> {
    let found = of_kind(bytes, kind);
    (!found.is_empty()).then(|| random.pick(&found) * RECORD + byte)
}

fn exchange(bytes: &mut [u8], one: usize, other: usize) {
    for byte in 0..RECORD {
        bytes.swap(one * RECORD + byte, other * RECORD + byte);
    }
}

/// Over the limit by a byte, a record or many records.
fn too_long(random: &mut Random, bytes: &mut Vec<u8>) {
    let over = random.pick(&[1, 15, 16, 17, 160, 8_192]);
    bytes.resize(LONGEST + over, random.byte());
}

fn not_whole(random: &mut Random, bytes: &mut Vec<u8>) {
    let some = 1 + random.below(RECORD - 1);
    let shorter = bytes.len().saturating_sub(some);
    let longer = bytes.len() + some;
    bytes.resize(if random.chance(50) { shorter } else { longer }, 0);
}

/// A byte of a record outside what document 01 allows there.
fn bad_field(random: &mut Random, bytes: &mut Vec<u8>) {
    let zero = 4 + random.below(4);
    let (kind, byte) =
        random.pick(&[(BLOCK, 1), (BLOCK, 2), (BLOCK, 3), (BLOCK, zero), (ARM, 3), (ARM, zero)]);
    let Some(at) = byte_of(random, bytes, kind, byte) else { return };
    match (kind, byte) {
        (BLOCK, 1) => bytes[at] |= 128,
        (BLOCK, 2) => bytes[at] |= HEAD,
        (BLOCK, 3) => bytes[at] = 7 + random.byte() % 249,
        (ARM, 3) => bytes[at] = 2 + random.byte() % 254,
        _ => bytes[at] = 1 + random.byte() % 255,
    }
}

fn bad_kind(random: &mut Random, bytes: &mut Vec<u8>) {
    if count(bytes) > 0 {
        let at = random.below(count(bytes)) * RECORD;
        bytes[at] = random.pick(&[0, 3, 4, 6, 129, 255]);
    }
}

/// A block moved, or a new one put, behind some arm.
fn block_after_arm(random: &mut Random, bytes: &mut Vec<u8>) {
    let (Some(block), Some(arm)) =
        (byte_of(random, bytes, BLOCK, 0), byte_of(random, bytes, ARM, 0))
    else {
        return;
    };
    if random.chance(50) {
        exchange(bytes, block / RECORD, arm / RECORD);
    } else {
        let record = bytes[block..block + RECORD].to_vec();
        bytes.splice(arm + RECORD..arm + RECORD, record);
    }
}

fn arms_out_of_order(random: &mut Random, bytes: &mut Vec<u8>) {
    let arms = of_kind(bytes, ARM);
    if arms.len() > 1 {
        exchange(bytes, random.pick(&arms), random.pick(&arms));
    }
}

fn number_twice(random: &mut Random, bytes: &mut Vec<u8>) {
    let (Some(one), Some(other)) =
        (byte_of(random, bytes, BLOCK, 1), byte_of(random, bytes, BLOCK, 1))
    else {
        return;
    };
    bytes[one] = bytes[other];
}

fn second_entry(random: &mut Random, bytes: &mut Vec<u8>) {
    for _ in 0..2 {
        if let Some(at) = byte_of(random, bytes, BLOCK, 2) {
            bytes[at] |= ENTRY;
        }
    }
}

/// An arm from or to any number, of which few are listed, or past the numbers there are.
fn not_listed(random: &mut Random, bytes: &mut Vec<u8>) {
    let side = 1 + random.below(2);
    if let Some(at) = byte_of(random, bytes, ARM, side) {
        bytes[at] = random.byte();
    }
}

/// The last arm again and again: to the limit, one past it, or further.
fn too_many_arms(random: &mut Random, bytes: &mut Vec<u8>) {
    let arms = of_kind(bytes, ARM).len();
    if arms == 0 || count(bytes) - arms > LONGEST / RECORD - MOST_ARMS - 1 {
        return;
    }
    let last = bytes[bytes.len() - RECORD..].to_vec();
    let wanted = MOST_ARMS + random.below(4);
    for _ in arms..wanted {
        bytes.extend(&last);
    }
}

/// Another end on a block, which is too little for its arms when it has several.
fn panicking_end(random: &mut Random, bytes: &mut Vec<u8>) {
    if let Some(arm) = byte_of(random, bytes, ARM, 0) {
        let from = bytes[arm + 1];
        let blocks = of_kind(bytes, BLOCK);
        let leaves = blocks.into_iter().find(|index| bytes[index * RECORD + 1] == from);
        if let Some(index) = leaves {
            bytes[index * RECORD + 3] = random.pick(&[0, 1, 2, 6]);
        }
    }
}

fn any_byte(random: &mut Random, bytes: &mut Vec<u8>) {
    if !bytes.is_empty() {
        let at = random.below(bytes.len());
        bytes[at] = random.byte();
    }
}

fn records_exchanged(random: &mut Random, bytes: &mut Vec<u8>) {
    if count(bytes) > 1 {
        let (one, other) = (random.below(count(bytes)), random.below(count(bytes)));
        exchange(bytes, one, other);
    }
}

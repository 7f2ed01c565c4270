//! Reading and writing back a full file, 128 blocks and 384 arms in 8,192 bytes.
//!
//! The buffers are lent again and again and are not cleared in between: both sides write every byte
//! of the result, so what stood there does not matter.

use crate::archive::Archive;
use crate::plain;
use crate::turns::{Shortest, once};
use judge::generate;
use judge::random::Random;
use judge::records::LONGEST;
use std::hint::black_box;

const REPETITIONS: usize = 20_000;

pub fn timed(archive: Archive) -> Shortest {
    let input = generate::full(&mut Random::new(1)).bytes();
    let (mut one, mut other) = (vec![0; LONGEST], vec![1; LONGEST]);
    let answers = ((archive.write_back)(&input, &mut one), plain::write_back(&input, &mut other));
    assert_eq!(answers.0, answers.1);
    assert_eq!((one == input, other == input), (true, true), "both write the file back");
    Shortest::of(
        REPETITIONS,
        || once(|| black_box((archive.write_back)(black_box(&input), black_box(&mut one)))),
        || once(|| black_box(plain::write_back(black_box(&input), black_box(&mut other)))),
    )
}

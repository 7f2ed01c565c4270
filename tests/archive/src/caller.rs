//! A running program that makes calls to the archive.

use crate::Program;
use judge::records::{Answer, Choices};
use std::io::{Read, Write};
use std::process::{Child, ChildStdin, ChildStdout, Stdio};

/// The bytes before and behind the lent ones that no call may touch, as `caller.c` has them.
const GUARD: usize = 32;
const UNTOUCHED: u8 = 0xc3;

/// The calls by number, as `caller.c` has them: a layout has one bit for each choice.
const FORWARD: u64 = 1;
const REORDER: u64 = 2;
const WRITE_BACK: u64 = 4;

/// One `caller` process, which ends when this is dropped.
#[derive(Debug)]
pub struct Caller {
    process: Child,
    requests: Option<ChildStdin>,
    replies: ChildStdout,
}

impl Caller {
    #[must_use]
    pub fn started(program: &Program) -> Self {
        let mut command = program.command();
        command.stdin(Stdio::piped()).stdout(Stdio::piped());
        let mut process = command.spawn().expect("the caller starts");
        let requests = process.stdin.take();
        let replies = process.stdout.take().expect("the caller's output is a pipe");
        Caller { process, requests, replies }
    }

    /// Calls `layout_write_back`.
    pub fn write_back(&mut self, input: &[u8], out: &mut [u8]) -> Answer {
        self.call(WRITE_BACK, input, out)
    }

    /// Calls `layout_blocks`.
    pub fn layout_blocks(&mut self, input: &[u8], choices: Choices, out: &mut [u8]) -> Answer {
        let bit = |bit: u64, chosen: bool| if chosen { bit } else { 0 };
        let number = bit(FORWARD, choices.forward) | bit(REORDER, choices.reorder);
        self.call(number, input, out)
    }

    /// Has a call made, and sees that nothing outside the lent bytes changed.
    fn call(&mut self, number: u64, input: &[u8], out: &mut [u8]) -> Answer {
        let mut request = Vec::with_capacity(24 + input.len() + out.len() + 2 * GUARD);
        request.extend(number.to_le_bytes());
        request.extend((input.len() as u64).to_le_bytes());
        request.extend((out.len() as u64).to_le_bytes());
        request.extend(input);
        request.extend([UNTOUCHED; GUARD]);
        request.extend(&*out);
        request.extend([UNTOUCHED; GUARD]);
        let requests = self.requests.as_mut().expect("the caller takes requests");
        requests.write_all(&request).expect("the caller reads its requests");

        let mut reply = vec![0; 64 + out.len() + 2 * GUARD];
        self.replies.read_exact(&mut reply).expect("the caller replies");
        let (numbers, region) = reply.split_at(64);
        let (before, rest) = region.split_at(GUARD);
        let (lent, behind) = rest.split_at(out.len());
        assert_eq!(
            [before, behind],
            [[UNTOUCHED; GUARD]; 2],
            "a byte outside the lent ones changed"
        );
        out.copy_from_slice(lent);
        answer(numbers)
    }
}

impl Drop for Caller {
    fn drop(&mut self) {
        self.requests = None;
        // Without requests the program ends by itself; a failure showed in the replies.
        let _ = self.process.wait();
    }
}

/// The answer as it stands in memory on x86-64: eight numbers, little-endian.
fn answer(bytes: &[u8]) -> Answer {
    let mut numbers = [0; 8];
    for (number, bytes) in numbers.iter_mut().zip(bytes.chunks_exact(8)) {
        *number = u64::from_le_bytes(bytes.try_into().expect("eight bytes"));
    }
    Answer::from_numbers(numbers)
}

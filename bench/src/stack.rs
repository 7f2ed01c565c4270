//! How far a layout call goes down its thread's stack.
//!
//! The call is made in a thread whose stack is ours and was painted before. What the call has
//! overwritten, from where it was made down to the lowest changed byte, is what it used.

use crate::archive::Archive;
use crate::graphs;
use judge::records::{Choices, LONGEST};
use std::ffi::{c_int, c_ulong, c_void};
use std::hint::black_box;
use std::ptr;

const SIZE: usize = 1 << 20;
const PAINT: u8 = 0xa5;

/// The C library's attributes of a thread, which take 56 bytes on x86-64 Linux.
#[repr(C, align(16))]
struct Attributes([u8; 64]);

unsafe extern "C" {
    fn pthread_attr_init(attributes: *mut Attributes) -> c_int;
    fn pthread_attr_setstack(attributes: *mut Attributes, low: *mut c_void, size: usize) -> c_int;
    fn pthread_create(
        thread: *mut c_ulong,
        attributes: *const Attributes,
        start: extern "C" fn(*mut c_void) -> *mut c_void,
        with: *mut c_void,
    ) -> c_int;
    fn pthread_join(thread: c_ulong, result: *mut *mut c_void) -> c_int;
}

/// A page's worth of stack, so that the whole is aligned as a stack must be.
#[repr(align(4096))]
#[derive(Clone)]
struct Page([u8; 4096]);

/// What the thread is told, and where on its stack it made the call.
struct Told {
    archive: Archive,
    input: Vec<u8>,
    choices: Choices,
    out: Vec<u8>,
    from: usize,
}

extern "C" fn start(told: *mut c_void) -> *mut c_void {
    // The one who started the thread waits for its end and looks at nothing before.
    let told = unsafe { &mut *told.cast::<Told>() };
    let here = 0_u8;
    told.from = ptr::from_ref(black_box(&here)).addr();
    black_box((told.archive.layout_blocks)(&told.input, told.choices, &mut told.out));
    ptr::null_mut()
}

/// Runs the thread to its end on these pages.
fn run(stack: &mut [Page], told: &mut Told) {
    let low = stack.as_mut_ptr().cast();
    let mut attributes = Attributes([0; 64]);
    let mut thread = 0;
    // The pages and what the thread is told outlive it, since it is joined here.
    let started = unsafe {
        pthread_attr_init(&mut attributes)
            | pthread_attr_setstack(&mut attributes, low, SIZE)
            | pthread_create(&mut thread, &attributes, start, ptr::from_mut(told).cast())
    };
    assert_eq!(started, 0, "the thread was started");
    let ended = unsafe { pthread_join(thread, ptr::null_mut()) };
    assert_eq!(ended, 0, "the thread has ended");
}

/// The bytes of stack that one call used.
fn used(told: &mut Told) -> usize {
    let mut stack = vec![Page([PAINT; 4096]); SIZE / 4096];
    let low = stack.as_ptr().addr();
    run(&mut stack, told);
    let painted = stack.iter().flat_map(|page| page.0).take_while(|&byte| byte == PAINT).count();
    assert!(painted > 0, "the stack was large enough");
    told.from - (low + painted)
}

/// How many graphs were laid, and the most bytes that a call used.
pub fn deepest(archive: Archive) -> (usize, usize) {
    let (mut count, mut most) = (0, 0);
    for graph in graphs::largest() {
        for choices in Choices::ALL {
            let (input, out) = (graph.bytes(), vec![0; 2 * LONGEST]);
            most = most.max(used(&mut Told { archive, input, choices, out, from: 0 }));
        }
        count += 1;
    }
    (count, most)
}

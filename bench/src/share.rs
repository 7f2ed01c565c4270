//! How much of a layout's time goes to the C library's `memmove` and `memset`, the only functions
//! that the archive calls outside of itself: a timer looks at where the processor is.

use crate::archive::Archive;
use crate::graphs;
use judge::real;
use judge::records::{Choices, Graph, LONGEST};
use std::ffi::{c_int, c_long, c_void};
use std::hint::black_box;
use std::ptr;
use std::sync::atomic::{AtomicUsize, Ordering};
use std::time::{Duration, Instant};

/// How long each is looked at, and how many microseconds pass between two looks.
const LOOKED_AT: Duration = Duration::from_millis(500);
const BETWEEN: c_long = 250;

/// No function of the C library that copies or fills is longer than this.
const LONGEST_FUNCTION: usize = 4096;

const SIGALRM: c_int = 14;
const SA_SIGINFO: c_int = 4;
const SA_RESTART: c_int = 0x1000_0000;
const ITIMER_REAL: c_int = 0;

/// Where the instruction pointer stands in what a handler is given, on x86-64 Linux: behind two words,
/// the alternate stack's three, and sixteen registers.
const INSTRUCTION_POINTER: usize = 2 + 3 + 16;

#[repr(C)]
struct Action {
    handler: extern "C" fn(c_int, *mut c_void, *mut usize),
    mask: [u64; 16],
    flags: c_int,
    restorer: *const c_void,
}

/// Seconds and microseconds, again and once.
#[repr(C)]
struct Timer([c_long; 4]);

unsafe extern "C" {
    fn sigaction(signal: c_int, action: *const Action, old: *mut Action) -> c_int;
    fn setitimer(which: c_int, timer: *const Timer, old: *mut Timer) -> c_int;
    fn memmove(to: *mut c_void, from: *const c_void, count: usize) -> *mut c_void;
    fn memcpy(to: *mut c_void, from: *const c_void, count: usize) -> *mut c_void;
    fn memset(to: *mut c_void, byte: c_int, count: usize) -> *mut c_void;
}

/// Looks in all, and of these in what copies and in what fills.
static LOOKS: AtomicUsize = AtomicUsize::new(0);
static COPYING: AtomicUsize = AtomicUsize::new(0);
static FILLING: AtomicUsize = AtomicUsize::new(0);

extern "C" fn look(_signal: c_int, _about: *mut c_void, context: *mut usize) {
    // The kernel hands over the registers as they were.
    let at = unsafe { *context.add(INSTRUCTION_POINTER) };
    let functions = [
        (memmove as *const () as usize, &COPYING),
        (memcpy as *const () as usize, &COPYING),
        (memset as *const () as usize, &FILLING),
    ];
    let inside = |(start, _): &(usize, _)| (*start..*start + LONGEST_FUNCTION).contains(&at);
    if let Some((_, count)) = functions.into_iter().filter(inside).max_by_key(|(start, _)| *start) {
        count.fetch_add(1, Ordering::Relaxed);
    }
    LOOKS.fetch_add(1, Ordering::Relaxed);
}

/// Has the timer look every so often, or not at all.
fn every(micros: c_long) {
    let timer = Timer([0, micros, 0, micros]);
    let set = unsafe { setitimer(ITIMER_REAL, &timer, ptr::null_mut()) };
    assert_eq!(set, 0, "the timer is set");
}

/// The hundredths of the time in which bytes are copied and filled while these graphs are laid.
fn of(archive: Archive, graphs: &[Graph]) -> (usize, usize) {
    let inputs: Vec<Vec<u8>> = graphs.iter().map(Graph::bytes).collect();
    let mut out = vec![0; 2 * LONGEST];
    for count in [&LOOKS, &COPYING, &FILLING] {
        count.store(0, Ordering::Relaxed);
    }
    let start = Instant::now();
    every(BETWEEN);
    while start.elapsed() < LOOKED_AT {
        for input in &inputs {
            for choices in Choices::ALL {
                black_box((archive.layout_blocks)(black_box(input), choices, &mut out));
            }
        }
    }
    every(0);
    let looks = LOOKS.load(Ordering::Relaxed);
    assert!(looks > 0, "the timer looked");
    let part = |count: &AtomicUsize| 100 * count.load(Ordering::Relaxed) / looks;
    (part(&COPYING), part(&FILLING))
}

/// Prints a line for each graph, by all four choices, and one for the real functions.
pub fn print(archive: Archive) {
    let action = Action {
        handler: look,
        mask: [0; 16],
        flags: SA_SIGINFO | SA_RESTART,
        restorer: ptr::null(),
    };
    let set = unsafe { sigaction(SIGALRM, &action, ptr::null_mut()) };
    assert_eq!(set, 0, "the signal is taken");
    let real = real::functions().into_iter().map(|(_, graph)| graph).collect();
    let single = graphs::all().map(|(name, graph)| (name, vec![graph]));
    println!("{:<56}{:>12}{:>12}", "of a hundred looks in a layout", "memmove", "memset");
    for (name, graphs) in single.into_iter().chain([("the real functions", real)]) {
        let (copying, filling) = of(archive, &graphs);
        println!("{name:<56}{copying:>12}{filling:>12}");
    }
}

//! Work on many files, shared out among threads.

/// Has the work done by a few threads at once, and gives what each found. A share is every
/// so-manieth number: the work is told its first and the step to the next.
pub fn in_shares<T: Send>(work: impl Fn(u64, usize) -> T + Sync) -> Vec<T> {
    let shares = std::thread::available_parallelism().map_or(1, |count| count.get().min(4));
    let work = &work;
    std::thread::scope(|scope| {
        let started: Vec<_> =
            (0..shares as u64).map(|first| scope.spawn(move || work(first, shares))).collect();
        let ended = started.into_iter().map(std::thread::ScopedJoinHandle::join);
        ended.map(|share| share.unwrap_or_else(|cause| std::panic::resume_unwind(cause))).collect()
    })
}

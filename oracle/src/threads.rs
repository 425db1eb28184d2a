//! Work on two threads.

use std::sync::atomic::{AtomicBool, AtomicUsize, Ordering};
use std::thread;

/// How many threads work.
const THREADS: usize = 2;

/// Does the work on each item, and gives what it comes to in the order of the items, or the place and the failure of
/// the first item that fails: the same items give the same one whatever the threads do.
pub fn on_threads<Item: Sync, Done: Send, Failure: Send>(
    items: &[Item],
    work: impl Fn(&Item) -> Result<Done, Failure> + Sync,
) -> Result<Vec<Done>, (usize, Failure)> {
    let next = AtomicUsize::new(0);
    let stop = AtomicBool::new(false);
    let take = || take_items(items, &work, &next, &stop);
    let mut outcomes = thread::scope(|scope| {
        let threads: Vec<_> = (0..THREADS).map(|_| scope.spawn(take)).collect();
        let done = threads.into_iter().flat_map(|thread| thread.join().expect("judges' panics are caught"));
        done.collect::<Vec<_>>()
    });
    outcomes.sort_by_key(|outcome| outcome.0);
    outcomes.into_iter().map(|(place, outcome)| outcome.map_err(|failure| (place, failure))).collect()
}

/// Takes one item after the other until none is left or one fails. As items are taken in order, every item before one
/// that fails is done to its end.
fn take_items<Item, Done, Failure>(
    items: &[Item],
    work: impl Fn(&Item) -> Result<Done, Failure>,
    next: &AtomicUsize,
    stop: &AtomicBool,
) -> Vec<(usize, Result<Done, Failure>)> {
    let mut outcomes = Vec::new();
    while !stop.load(Ordering::SeqCst) {
        let place = next.fetch_add(1, Ordering::SeqCst);
        let Some(item) = items.get(place) else { break };
        let outcome = work(item);
        if outcome.is_err() {
            stop.store(true, Ordering::SeqCst);
        }
        outcomes.push((place, outcome));
    }
    outcomes
}

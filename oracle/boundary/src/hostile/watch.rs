//! A clock beside the calls: each must return.

use std::sync::atomic::{AtomicU64, Ordering};
use std::sync::{Arc, Mutex, OnceLock, PoisonError};
use std::time::{Duration, Instant};

/// How long a call may take.
pub const LIMIT: Duration = Duration::from_secs(60);

/// An instruction that is none, a bus error, a wrong number, an address where nothing is.
const SIGNALS: [i32; 4] = [4, 7, 8, 11];

/// The watch whose calls a signal's message names.
static WATCHED: OnceLock<&'static Watch> = OnceLock::new();

unsafe extern "C" {
    /// The C library's, which std is linked with.
    fn signal(number: i32, handler: extern "C" fn(i32)) -> usize;
}

/// Tells which calls were under way at a signal, and ends the program.
extern "C" fn ended(number: i32) {
    if let Some(watch) = WATCHED.get() {
        eprintln!("hostile: a call ended with signal {number}; under way: {}", watch.under_way().join("; "));
    }
    std::process::abort();
}

/// The runs that are under way.
pub struct Watch {
    start: Instant,
    under_way: Mutex<Vec<Arc<Slot>>>,
}

/// A run that is under way: how to name it, its call's number, and when that call began, in milliseconds and one more; 0
/// between calls.
pub struct Slot {
    name: String,
    call: AtomicU64,
    began: AtomicU64,
}

impl Slot {
    fn name(&self) -> String {
        format!("{} call {}", self.name, self.call.load(Ordering::Relaxed))
    }
}

impl Default for Watch {
    fn default() -> Watch {
        Watch { start: Instant::now(), under_way: Mutex::new(Vec::new()) }
    }
}

impl Watch {
    fn now(&self) -> u64 {
        self.start.elapsed().as_millis() as u64 + 1
    }

    /// Begins to watch a run.
    pub fn enter(&self, name: String) -> Arc<Slot> {
        let slot = Arc::new(Slot { name, call: AtomicU64::new(0), began: AtomicU64::new(0) });
        self.under_way.lock().unwrap_or_else(PoisonError::into_inner).push(slot.clone());
        slot
    }

    /// Ends it.
    pub fn leave(&self, slot: &Arc<Slot>) {
        let mut under_way = self.under_way.lock().unwrap_or_else(PoisonError::into_inner);
        under_way.retain(|other| !Arc::ptr_eq(other, slot));
    }

    /// Makes one call of a run.
    pub fn timed<T>(&self, slot: &Slot, call: impl FnOnce() -> T) -> T {
        slot.call.fetch_add(1, Ordering::Relaxed);
        slot.began.store(self.now(), Ordering::Release);
        let given = call();
        slot.began.store(0, Ordering::Release);
        given
    }

    /// The calls that are under way; none where the list is in use just then.
    fn under_way(&self) -> Vec<String> {
        let under_way = self.under_way.try_lock();
        let calls = under_way.iter().flat_map(|slots| slots.iter());
        calls.filter(|slot| slot.began.load(Ordering::Acquire) != 0).map(|slot| slot.name()).collect()
    }

    /// The calls that have been under way for longer than the limit.
    pub fn late(&self, limit: Duration) -> Vec<String> {
        let now = self.now();
        let is_late = |slot: &&Arc<Slot>| {
            let began = slot.began.load(Ordering::Acquire);
            began != 0 && now.saturating_sub(began) > limit.as_millis() as u64
        };
        let under_way = self.under_way.lock().unwrap_or_else(PoisonError::into_inner);
        under_way.iter().filter(is_late).map(|slot| slot.name()).collect()
    }

    /// From now on a signal that a call ends with is told with the calls under way, before the program ends.
    pub fn tell_of_signals(&'static self) {
        if WATCHED.set(self).is_ok() {
            for number in SIGNALS {
                // SAFETY: the handler only prints, and ends the program
                unsafe { signal(number, ended) };
            }
        }
    }

    /// Ends the program, with a message, once a call takes longer than the limit. Never returns.
    pub fn guard(&self, limit: Duration) -> ! {
        loop {
            std::thread::sleep(Duration::from_millis(500));
            let late = self.late(limit);
            if !late.is_empty() {
                eprintln!("hostile: no answer for {} s: {}", limit.as_secs(), late.join("; "));
                std::process::abort();
            }
        }
    }
}

//! A panic of a judge is something that it says: it is caught and compared, not printed.

use std::any::Any;
use std::cell::Cell;
use std::panic::{self, AssertUnwindSafe};
use std::sync::Once;

thread_local! {
    /// Whether this thread is inside a judge.
    static INSIDE: Cell<bool> = const { Cell::new(false) };
}

/// What the call gives, or the text of its panic.
pub fn guarded<T>(call: impl FnOnce() -> T) -> Result<T, String> {
    static HOOK: Once = Once::new();
    HOOK.call_once(|| {
        let print = panic::take_hook();
        panic::set_hook(Box::new(move |info| {
            if !INSIDE.get() {
                print(info);
            }
        }));
    });
    let outer = INSIDE.replace(true);
    let given = panic::catch_unwind(AssertUnwindSafe(call));
    INSIDE.set(outer);
    given.map_err(|payload| format!("panics: {}", text(&*payload)))
}

fn text(payload: &(dyn Any + Send)) -> &str {
    let formatted = payload.downcast_ref::<String>().map(String::as_str);
    formatted.or(payload.downcast_ref::<&str>().copied()).unwrap_or("no text")
}

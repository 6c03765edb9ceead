//! Panics of the original are caught and print nothing; those of this program are reported as usual.

use std::cell::Cell;
use std::panic::{catch_unwind, set_hook, take_hook, AssertUnwindSafe};

thread_local! {
    static CATCHING: Cell<bool> = const { Cell::new(false) };
}

/// Call once, before `caught`.
pub fn silence() {
    let loud = take_hook();
    set_hook(Box::new(move |panic| {
        if !CATCHING.get() {
            loud(panic);
        }
    }));
}

/// What `asked` gives, or none where it panics.
pub fn caught<T>(asked: impl FnOnce() -> T) -> Option<T> {
    CATCHING.set(true);
    let result = catch_unwind(AssertUnwindSafe(asked));
    CATCHING.set(false);
    result.ok()
}

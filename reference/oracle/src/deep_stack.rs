//! A deep stack for recursion on trees: building, walking and dropping a tree recurse to its depth.

use std::cell::Cell;
use std::panic::resume_unwind;
use std::thread;

const STACK_BYTES: usize = 512 << 20;

thread_local! {
    static IS_DEEP: Cell<bool> = const { Cell::new(false) };
}

/// Does the work on a thread with a deep stack: on this one if it is such a thread already.
pub fn with_deep_stack<R: Send>(work: impl FnOnce() -> R + Send) -> R {
    if IS_DEEP.get() {
        return work();
    }
    let marked_work = || {
        IS_DEEP.set(true);
        work()
    };
    thread::scope(|scope| {
        let builder = thread::Builder::new().stack_size(STACK_BYTES);
        let thread = builder
            .spawn_scoped(scope, marked_work)
            .expect("the system grants a thread with a deep stack");
        thread.join().unwrap_or_else(|panic| resume_unwind(panic))
    })
}

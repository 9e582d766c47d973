// thread_local! of the standard library: each thread counts its own calls, and all calls are counted together. A result is 2,
// the thread's own calls, and 100 for each call that all threads had made when the thread ended.
use std::cell::Cell;
use std::sync::atomic::{AtomicU32, Ordering::Relaxed};

thread_local! {
    static CALLS: Cell<u32> = Cell::new(0);
}
static ALL_CALLS: AtomicU32 = AtomicU32::new(0);

fn count() {
    CALLS.with(|calls| calls.set(calls.get() + 1));
    ALL_CALLS.fetch_add(1, Relaxed);
}

fn count_twice() -> u32 {
    count();
    count();
    CALLS.with(|calls| calls.get()) + 100 * ALL_CALLS.load(Relaxed)
}

#[no_mangle]
pub extern "C" fn first() -> u32 { count_twice() }

#[no_mangle]
pub extern "C" fn second() -> u32 { count_twice() }

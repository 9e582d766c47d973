// An Arc of a Mutex around a vector, all of the standard library with its own allocator: one thread makes the list and hands
// a second reference over, and both push to it. A result is the number of elements that the thread saw, 0 if the second thread
// found no list.
use std::sync::atomic::{AtomicPtr, Ordering::{AcqRel, Release}};
use std::sync::{Arc, Mutex};

static HANDED: AtomicPtr<Mutex<Vec<u32>>> = AtomicPtr::new(core::ptr::null_mut());

fn push(list: Arc<Mutex<Vec<u32>>>, number: u32) -> usize {
    let mut list = list.lock().unwrap();
    list.push(number);
    list.len()
}

#[no_mangle]
pub extern "C" fn maker() -> usize {
    let list = Arc::new(Mutex::new(Vec::new()));
    HANDED.store(Arc::into_raw(list.clone()) as *mut _, Release);
    push(list, 1)
}

#[no_mangle]
pub extern "C" fn taker() -> usize {
    let list = HANDED.swap(core::ptr::null_mut(), AcqRel);
    if list.is_null() { 0 } else { push(unsafe { Arc::from_raw(list) }, 2) }
}

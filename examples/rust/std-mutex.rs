// The Mutex of the standard library: two threads count under it. A result is what the thread saw last: one of them is 6, and
// both are at least 3.
use std::sync::Mutex;

static COUNTER: Mutex<u32> = Mutex::new(0);

fn add_three() -> u32 {
    let mut last = 0;
    for _ in 0..3 {
        let mut counter = COUNTER.lock().unwrap();
        *counter += 1;
        last = *counter;
    }
    last
}

#[no_mangle]
pub extern "C" fn first() -> u32 { add_three() }

#[no_mangle]
pub extern "C" fn second() -> u32 { add_three() }

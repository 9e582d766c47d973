// A mutex whose guard unlocks it when it is dropped. Its state has 32 bits, since wmlab does not take compare-exchanges of one
// byte. The results are the two counts that each thread saw as digits: 1 to 4, each once.
#![no_std]
use core::cell::UnsafeCell;
use core::ops::{Deref, DerefMut};
use core::sync::atomic::{AtomicU32, Ordering::{Acquire, Relaxed, Release}};

struct Mutex<T> {
    state: AtomicU32,
    value: UnsafeCell<T>,
}

unsafe impl<T: Send> Sync for Mutex<T> {}

struct Guard<'a, T>(&'a Mutex<T>);

impl<T> Mutex<T> {
    fn lock(&self) -> Guard<'_, T> {
        while self.state.compare_exchange_weak(0, 1, Acquire, Relaxed).is_err() {}
        Guard(self)
    }
}

impl<T> Deref for Guard<'_, T> {
    type Target = T;
    fn deref(&self) -> &T {
        unsafe { &*self.0.value.get() }
    }
}

impl<T> DerefMut for Guard<'_, T> {
    fn deref_mut(&mut self) -> &mut T {
        unsafe { &mut *self.0.value.get() }
    }
}

impl<T> Drop for Guard<'_, T> {
    fn drop(&mut self) {
        self.0.state.store(0, Release);
    }
}

static COUNT: Mutex<u32> = Mutex { state: AtomicU32::new(0), value: UnsafeCell::new(0) };

fn enter() -> u32 {
    let mut count = COUNT.lock();
    *count += 1;
    *count
}

#[no_mangle]
pub extern "C" fn first() -> u32 {
    enter() * 10 + enter()
}

#[no_mangle]
pub extern "C" fn second() -> u32 {
    enter() * 10 + enter()
}

#[panic_handler]
fn panic(_: &core::panic::PanicInfo) -> ! {
    core::arch::wasm32::unreachable()
}

// A slice with bounds checks: one thread publishes an index, which is past the end the second time. The reader's result is the
// number there, 30, or 0 if nothing was published; it traps as unreachable at the second index.
#![no_std]
use core::sync::atomic::{AtomicUsize, Ordering::{Acquire, Release}};

static NUMBERS: [u32; 4] = [10, 20, 30, 40];
static INDEX: AtomicUsize = AtomicUsize::new(usize::MAX);

#[no_mangle]
pub extern "C" fn publisher() {
    INDEX.store(2, Release);
    INDEX.store(NUMBERS.len(), Release);
}

#[no_mangle]
pub extern "C" fn reader() -> u32 {
    match INDEX.load(Acquire) {
        usize::MAX => 0,
        index => NUMBERS[index],
    }
}

#[panic_handler]
fn panic(_: &core::panic::PanicInfo) -> ! {
    core::arch::wasm32::unreachable()
}

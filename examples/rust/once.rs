// A cell that is initialized once: the first thread makes the value, another waits until it is complete. Each result is 15.
#![no_std]
use core::cell::UnsafeCell;
use core::sync::atomic::{AtomicU32, Ordering::{Acquire, Release}};

const EMPTY: u32 = 0;
const IN_WORK: u32 = 1;
const COMPLETE: u32 = 2;

struct Once {
    state: AtomicU32,
    value: UnsafeCell<[u32; 3]>,
}

unsafe impl Sync for Once {}

static TABLE: Once = Once { state: AtomicU32::new(EMPTY), value: UnsafeCell::new([0; 3]) };

impl Once {
    fn get(&self) -> &[u32; 3] {
        match self.state.compare_exchange(EMPTY, IN_WORK, Acquire, Acquire) {
            Ok(_) => {
                unsafe { *self.value.get() = [4, 5, 6] };
                self.state.store(COMPLETE, Release);
            }
            Err(_) => while self.state.load(Acquire) != COMPLETE {},
        }
        unsafe { &*self.value.get() }
    }
}

#[no_mangle]
pub extern "C" fn first() -> u32 {
    TABLE.get().iter().sum()
}

#[no_mangle]
pub extern "C" fn second() -> u32 {
    TABLE.get().iter().sum()
}

#[panic_handler]
fn panic(_: &core::panic::PanicInfo) -> ! {
    core::arch::wasm32::unreachable()
}

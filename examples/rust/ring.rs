// A ring buffer with one producer and one consumer. The producer's result is how many of 7, 8 and 9 it put in; the consumer's
// has what it took in three tries as digits, 0 for none.
#![no_std]
use core::cell::UnsafeCell;
use core::sync::atomic::{AtomicUsize, Ordering::{Acquire, Relaxed, Release}};

const SLOTS: usize = 2;

struct Ring {
    head: AtomicUsize,
    tail: AtomicUsize,
    slots: UnsafeCell<[u32; SLOTS]>,
}

// One producer writes the slots between tail and head, one consumer reads the others.
unsafe impl Sync for Ring {}

static RING: Ring = Ring { head: AtomicUsize::new(0), tail: AtomicUsize::new(0), slots: UnsafeCell::new([0; SLOTS]) };

impl Ring {
    fn put(&self, number: u32) -> Result<(), u32> {
        let head = self.head.load(Relaxed);
        if head - self.tail.load(Acquire) == SLOTS {
            return Err(number);
        }
        unsafe { (*self.slots.get())[head % SLOTS] = number };
        self.head.store(head + 1, Release);
        Ok(())
    }

    fn take(&self) -> Option<u32> {
        let tail = self.tail.load(Relaxed);
        if tail == self.head.load(Acquire) {
            return None;
        }
        let number = unsafe { (*self.slots.get())[tail % SLOTS] };
        self.tail.store(tail + 1, Release);
        Some(number)
    }
}

#[no_mangle]
pub extern "C" fn producer() -> u32 {
    (7..10).filter(|&number| RING.put(number).is_ok()).count() as u32
}

#[no_mangle]
pub extern "C" fn consumer() -> u32 {
    (0..3).fold(0, |digits, _| digits * 10 + RING.take().unwrap_or(0))
}

#[panic_handler]
fn panic(_: &core::panic::PanicInfo) -> ! {
    core::arch::wasm32::unreachable()
}

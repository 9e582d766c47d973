// Arrays on the stack, which the compiler keeps in the shared memory: each thread needs a stack of its own, or the threads write
// over each other's arrays. A result has the thread's own sum, 10 or 26, and above it the other's, or 0 if that is not there yet.
// lower: --stacks each
#![no_std]
use core::sync::atomic::{AtomicU32, Ordering::{Acquire, Release}};

static SUMS: [AtomicU32; 2] = [AtomicU32::new(0), AtomicU32::new(0)];

#[inline(never)]
fn fill(numbers: &mut [u32], first: u32) {
    for (number, value) in numbers.iter_mut().zip(first..) {
        *number = value;
    }
}

fn sum_from(me: usize, first: u32) -> u32 {
    let mut numbers = [0; 4];
    fill(&mut numbers, first);
    let sum = numbers.iter().sum();
    SUMS[me].store(sum, Release);
    SUMS[1 - me].load(Acquire) * 100 + sum
}

#[no_mangle]
pub extern "C" fn one() -> u32 {
    sum_from(0, 1)
}

#[no_mangle]
pub extern "C" fn five() -> u32 {
    sum_from(1, 5)
}

#[panic_handler]
fn panic(_: &core::panic::PanicInfo) -> ! {
    core::arch::wasm32::unreachable()
}

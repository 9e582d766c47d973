// Jobs as trait objects that workers take by a shared counter: their methods are called by a table. A worker's result is the sum
// of what its jobs gave; both together give 4 + 9 + 32 = 45.
#![no_std]
use core::sync::atomic::{AtomicUsize, Ordering::Relaxed};

trait Job: Sync {
    fn run(&self) -> u32;
}

struct Square(u32);
struct Power(u32);

impl Job for Square {
    fn run(&self) -> u32 {
        self.0 * self.0
    }
}

impl Job for Power {
    fn run(&self) -> u32 {
        1 << self.0
    }
}

static JOBS: [&dyn Job; 3] = [&Square(2), &Square(3), &Power(5)];
static NEXT: AtomicUsize = AtomicUsize::new(0);

fn work() -> u32 {
    let mut sum = 0;
    while let Some(job) = JOBS.get(NEXT.fetch_add(1, Relaxed)) {
        sum += job.run();
    }
    sum
}

#[no_mangle]
pub extern "C" fn first() -> u32 {
    work()
}

#[no_mangle]
pub extern "C" fn second() -> u32 {
    work()
}

#[panic_handler]
fn panic(_: &core::panic::PanicInfo) -> ! {
    core::arch::wasm32::unreachable()
}

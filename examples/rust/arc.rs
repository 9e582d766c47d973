// The Arc of the standard library: one thread makes an object and hands a second reference over; the thread that drops the last
// one drops the object. The results are 42 for a thread that read the object, and 100 more for the one that dropped it. The second
// thread's is 0 if nothing was handed over.
use std::alloc::{GlobalAlloc, Layout};
use std::sync::atomic::{AtomicPtr, AtomicUsize, Ordering::{AcqRel, Acquire, Relaxed}};
use std::sync::Arc;

struct Room;
static mut ROOM: [u64; 64] = [0; 64];
static USED: AtomicUsize = AtomicUsize::new(0);

// The allocator of the standard library is not made for threads on this target. Memory is not used again.
unsafe impl GlobalAlloc for Room {
    unsafe fn alloc(&self, layout: Layout) -> *mut u8 {
        let at = USED.fetch_add((layout.size() + 7) / 8, Relaxed);
        if at + (layout.size() + 7) / 8 > 64 || layout.align() > 8 {
            return core::ptr::null_mut();
        }
        core::ptr::addr_of_mut!(ROOM).cast::<u64>().add(at).cast()
    }

    unsafe fn dealloc(&self, _: *mut u8, _: Layout) {}
}

#[global_allocator]
static ALLOCATOR: Room = Room;

struct Object(u32);
static DROPS: AtomicUsize = AtomicUsize::new(0);

impl Drop for Object {
    fn drop(&mut self) {
        DROPS.fetch_add(1, Relaxed);
    }
}

static HANDED: AtomicPtr<Object> = AtomicPtr::new(core::ptr::null_mut());

fn use_and_drop(object: Arc<Object>) -> u32 {
    let number = object.0;
    let before = DROPS.load(Acquire);
    drop(object);
    number + 100 * (DROPS.load(Acquire) - before) as u32
}

#[no_mangle]
pub extern "C" fn maker() -> u32 {
    let object = Arc::new(Object(42));
    HANDED.store(Arc::into_raw(object.clone()) as *mut Object, core::sync::atomic::Ordering::Release);
    use_and_drop(object)
}

#[no_mangle]
pub extern "C" fn taker() -> u32 {
    let pointer = HANDED.swap(core::ptr::null_mut(), AcqRel);
    if pointer.is_null() {
        return 0;
    }
    use_and_drop(unsafe { Arc::from_raw(pointer) })
}

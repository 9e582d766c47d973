// A channel of the standard library (mpsc): the thread that comes first makes it. The maker sends 1 and 2, and its result is how
// many it sent: 2. The taker waits for both, and its result has them as digits: 12.
use std::sync::mpsc::{channel, Receiver, Sender};
use std::sync::Mutex;

static ENDS: Mutex<Option<(Sender<u32>, Option<Receiver<u32>>)>> = Mutex::new(None);

fn with_ends<R>(work: impl FnOnce(&mut (Sender<u32>, Option<Receiver<u32>>)) -> R) -> R {
    let mut ends = ENDS.lock().unwrap();
    work(ends.get_or_insert_with(|| {
        let (sender, receiver) = channel();
        (sender, Some(receiver))
    }))
}

#[no_mangle]
pub extern "C" fn maker() -> u32 {
    let sender = with_ends(|ends| ends.0.clone());
    (1..=2).filter(|number| sender.send(*number).is_ok()).count() as u32
}

#[no_mangle]
pub extern "C" fn taker() -> u32 {
    let receiver = with_ends(|ends| ends.1.take()).unwrap();
    let first = receiver.recv().unwrap();
    first * 10 + receiver.recv().unwrap()
}

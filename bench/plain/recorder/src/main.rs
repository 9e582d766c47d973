//! A plain recorder: bytes with their writers, a queue of stores and lists of events for each thread. It makes the steps that
//! `recorder-program` makes: `recorder-plain PAGES ROUNDS` prints the sum of the values read.
use std::collections::VecDeque;

const STEPS: u32 = 16_384;

#[derive(Clone, Copy, PartialEq)]
enum Id {
    Init,
    At { thread: u32, number: u32 },
}

#[derive(Clone, Copy, PartialEq)]
enum Kind {
    Read,
    Write(u64),
}

#[derive(Clone, Copy)]
struct Op {
    kind: Kind,
    address: u32,
    width: u32,
    atomic: bool,
}

#[derive(Clone, Copy)]
#[allow(dead_code)]
struct Event {
    thread: u32,
    number: u32,
    kind: Kind,
    address: u32,
    width: u32,
    atomic: bool,
    read: u64,
    written: u64,
}

#[allow(dead_code)]
enum Item {
    Access(u32, Op),
    Drain(u32),
    DrainAt(u32, u32),
}

struct Recorder {
    bytes: Vec<u8>,
    writers: Vec<Id>,
    queues: Vec<VecDeque<Event>>,
    events: Vec<Vec<Event>>,
    read_from: Vec<Vec<Vec<Id>>>,
    order: Vec<(u32, u32)>,
    history: Vec<Item>,
}

fn overlap(a: &Event, b: &Event) -> bool {
    (a.address as u64) < b.address as u64 + b.width as u64 && (b.address as u64) < a.address as u64 + a.width as u64
}

impl Recorder {
    fn new(initial: &[u8], threads: usize) -> Self {
        Recorder {
            bytes: initial.to_vec(),
            writers: vec![Id::Init; initial.len()],
            queues: vec![VecDeque::new(); threads],
            events: vec![Vec::new(); threads],
            read_from: vec![Vec::new(); threads],
            order: Vec::new(),
            history: Vec::new(),
        }
    }

    fn publish(&mut self, e: &Event) {
        for k in 0..e.width as usize {
            self.bytes[e.address as usize + k] = (e.written >> (8 * k)) as u8;
            self.writers[e.address as usize + k] = Id::At { thread: e.thread, number: e.number };
        }
    }

    fn drain_at(&mut self, thread: u32, index: u32) -> bool {
        let queue = &self.queues[thread as usize];
        let Some(store) = queue.get(index as usize).copied() else { return false };
        if queue.iter().take(index as usize).any(|older| overlap(older, &store)) {
            return false;
        }
        self.history.push(Item::DrainAt(thread, index));
        self.queues[thread as usize].remove(index as usize);
        self.publish(&store);
        true
    }

    fn access(&mut self, thread: u32, op: Op) -> Option<Option<u64>> {
        if thread as usize >= self.queues.len()
            || op.address as usize + op.width as usize > self.bytes.len()
            || self.order.len() >= STEPS as usize
        {
            return None;
        }
        let number = self.events[thread as usize].len() as u32;
        if op.atomic {
            while let Some(store) = self.queues[thread as usize].pop_front() {
                self.publish(&store);
            }
        }
        let mut value = 0;
        let mut written = 0;
        let mut from = Vec::new();
        match op.kind {
            Kind::Read => {
                from.reserve_exact(op.width as usize);
                for k in 0..op.width {
                    let at = op.address + k;
                    let own = self.queues[thread as usize]
                        .iter()
                        .rev()
                        .find(|store| store.address <= at && at - store.address < store.width);
                    let (byte, id) = match own {
                        Some(store) => (
                            (store.written >> (8 * (at - store.address))) as u8,
                            Id::At { thread, number: store.number },
                        ),
                        None => (self.bytes[at as usize], self.writers[at as usize]),
                    };
                    value |= (byte as u64) << (8 * k);
                    from.push(id);
                }
            }
            Kind::Write(new) => written = new,
        }
        let event = Event {
            thread,
            number,
            kind: op.kind,
            address: op.address,
            width: op.width,
            atomic: op.atomic,
            read: value,
            written,
        };
        if let Kind::Write(_) = op.kind {
            if op.atomic {
                self.publish(&event);
            } else {
                if self.queues[thread as usize].len() == 64 {
                    let oldest = self.queues[thread as usize].pop_front().unwrap();
                    self.history.push(Item::Drain(thread));
                    self.publish(&oldest);
                }
                self.queues[thread as usize].push_back(event);
            }
        }
        self.history.push(Item::Access(thread, op));
        self.events[thread as usize].push(event);
        self.read_from[thread as usize].push(from);
        self.order.push((thread, number));
        Some(if op.kind == Kind::Read { Some(value) } else { None })
    }
}

struct Random {
    state: u64,
}

impl Random {
    fn below(&mut self, count: u32) -> u32 {
        self.state = self.state.wrapping_mul(6_364_136_223_846_793_005).wrapping_add(1_442_695_040_888_963_407);
        (self.state >> 33) as u32 % count
    }

    fn op(&mut self, bytes: u32) -> Op {
        let address = self.below(bytes);
        let width = 1 << self.below(4);
        let atomic = self.below(8) == 0;
        let kind = if self.below(2) == 0 { Kind::Read } else { Kind::Write(1) };
        Op { kind, address, width, atomic }
    }
}

fn round(pages: u32, steps: u32, bytes: u32, random: &mut Random) -> u64 {
    let initial = vec![0; pages as usize * 65_536];
    let mut recorder = Recorder::new(&initial, 4);
    let mut sum = 0u64;
    for _ in 0..steps {
        let thread = random.below(4);
        if random.below(4) == 0 {
            recorder.drain_at(thread, random.below(3));
        } else if let Some(read) = recorder.access(thread, random.op(bytes)) {
            sum = sum.wrapping_add(read.unwrap_or(0));
        }
    }
    sum.wrapping_add(recorder.order.len() as u64)
}

/// Fills so many pages with zeros and copies them, so many times, in memory that is kept.
fn copy(pages: u32, rounds: u32) {
    let mut initial = vec![1u8; pages as usize * 65_536];
    let mut copied = initial.clone();
    for _ in 0..rounds {
        std::hint::black_box(&mut initial).fill(0);
        copied.copy_from_slice(std::hint::black_box(&initial));
        std::hint::black_box(&mut copied);
    }
}

/// `PAGES ROUNDS [STEPS BYTES]` as the recorder's program, or `PAGES ROUNDS copy`.
fn main() {
    let words: Vec<String> = std::env::args().skip(1).collect();
    let number = |at: usize, other: u32| words.get(at).map_or(other, |word| word.parse().unwrap());
    let (pages, rounds) = (number(0, 1), number(1, 1));
    if words.get(2).is_some_and(|word| word == "copy") {
        return copy(pages, rounds);
    }
    let mut random = Random { state: 7 };
    let mut sum = 0u64;
    for _ in 0..rounds {
        let bytes = number(3, u32::MAX).min(pages * 65_536) + 1;
        sum = sum.wrapping_add(round(pages, number(2, STEPS), bytes, &mut random));
    }
    println!("{sum}");
}

//! A state of the search: a graph, and where its threads stand.
use std::rc::Rc;

use crate::graph::{Event, Graph};
use crate::thread::{Access, Thread};

/// The configurations of a thread since it last wrote, the newest first.
pub struct Turn {
    thread: Rc<Thread>,
    earlier: Option<Rc<Turn>>,
}

impl Turn {
    /// Whether the thread was as it is now.
    fn has(turn: &Option<Rc<Turn>>, thread: &Thread) -> bool {
        let mut next = turn;
        while let Some(turn) = next {
            if turn.thread.is_same(thread) {
                return true;
            }
            next = &turn.earlier;
        }
        false
    }
}

/// A choice of the writers of a read, by the value and some of the writers.
#[derive(Clone, Copy)]
pub struct Choice {
    pub event: Event,
    /// Of an atomic read its writers; of a plain one those that are atomic and happen before it.
    pub ties: u128,
}

impl Choice {
    /// Whether the other choice can stand for this plain one.
    pub fn is_served_by(&self, other: &Choice) -> bool {
        self.event.value_read == other.event.value_read && other.ties & !self.ties == 0
    }
}

/// A thread that waits for a further write, after some choices of its read.
pub struct Mark {
    pub tried: Vec<Choice>,
    /// How many events there were.
    pub events: usize,
}

#[derive(Clone)]
pub struct State {
    pub graph: Graph,
    pub threads: Vec<Rc<Thread>>,
    /// What each thread asks for; None if it ended or may make no further event.
    pub next: Vec<Option<Access>>,
    pub counts: Vec<usize>,
    pub marks: Vec<Option<Rc<Mark>>>,
    turns: Vec<Option<Rc<Turn>>>,
}

impl State {
    pub fn new(threads: Vec<Thread>) -> Self {
        let count = threads.len();
        State {
            graph: Graph::new(count),
            threads: threads.into_iter().map(Rc::new).collect(),
            next: vec![None; count],
            counts: vec![0; count],
            marks: vec![None; count],
            turns: vec![None; count],
        }
    }

    pub fn forget_turns(&mut self, thread: usize) {
        self.turns[thread] = None;
    }

    /// Notes where a thread stands; false if it stood there since it last wrote.
    pub fn note_turn(&mut self, thread: usize) -> bool {
        if Turn::has(&self.turns[thread], &self.threads[thread]) {
            return false;
        }
        let earlier = self.turns[thread].take();
        self.turns[thread] = Some(Rc::new(Turn {
            thread: Rc::clone(&self.threads[thread]),
            earlier,
        }));
        true
    }

    /// The event of a thread whose next access only writes.
    pub fn next_write(&self) -> Option<Event> {
        self.next.iter().enumerate().find_map(|(thread, next)| {
            let access = next.filter(|access| !access.reads())?;
            Some(self.event(thread, &access, 0, [0; 8]))
        })
    }

    /// The event of an access that reads a value from some writers.
    pub fn event(&self, thread: usize, access: &Access, value_read: u64, from: [u8; 8]) -> Event {
        let written = access.written(value_read);
        Event {
            thread,
            reads: access.reads(),
            writes: written.is_some(),
            is_atomic: access.is_atomic,
            address: access.address,
            width: access.width,
            value_read,
            written: written.unwrap_or(0),
            from,
        }
    }
}

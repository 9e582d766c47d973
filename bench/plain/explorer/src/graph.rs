//! The events of an execution so far, each after the earlier ones of its thread and after those that it reads from.
use crate::order::{members, Between, Order};

/// Stands for the initial memory among the writers of a read.
pub const INITIAL: u8 = u8::MAX;
pub const MAX_EVENTS: usize = 128;

#[derive(Clone, Copy)]
pub struct Event {
    pub thread: usize,
    pub reads: bool,
    pub writes: bool,
    pub is_atomic: bool,
    pub address: u32,
    pub width: u32,
    pub value_read: u64,
    pub written: u64,
    /// Who wrote each byte that was read.
    pub from: [u8; 8],
}

impl Event {
    pub fn writes_byte(&self, address: u32) -> bool {
        self.writes && self.address <= address && address < self.address + self.width
    }

    pub fn byte(&self, address: u32) -> u8 {
        (self.written >> (8 * (address - self.address))) as u8
    }

    pub fn is_tear_free(&self) -> bool {
        self.is_atomic || (self.width <= 4 && self.address % self.width == 0)
    }

    pub fn has_range_of(&self, other: &Event) -> bool {
        self.address == other.address && self.width == other.width
    }

    /// Whether a read that takes from this event synchronizes with it.
    fn releases_to(&self, read: &Event) -> bool {
        self.writes && self.is_atomic && read.reads && read.is_atomic && self.has_range_of(read)
    }

    /// The events that it reads from.
    pub fn writers(&self) -> u128 {
        let from = &self.from[..self.width as usize * usize::from(self.reads)];
        from.iter()
            .filter(|writer| **writer != INITIAL)
            .fold(0, |all, writer| all | 1 << writer)
    }

    fn reads_initial(&self) -> bool {
        self.reads && self.from[..self.width as usize].contains(&INITIAL)
    }
}

#[derive(Clone, Default)]
pub struct Graph {
    pub events: Vec<Event>,
    /// What happens before each event.
    pub before: Vec<u128>,
    order: Order,
    last: Vec<Option<usize>>,
}

impl Graph {
    pub fn new(threads: usize) -> Self {
        Graph {
            last: vec![None; threads],
            ..Graph::default()
        }
    }

    /// What happens before the next event of a thread, but for what it reads from.
    pub fn before_next(&self, thread: usize) -> u128 {
        self.last[thread].map_or(0, |last| self.before[last] | 1 << last)
    }

    fn before_new(&self, event: &Event) -> u128 {
        members(event.writers())
            .filter(|writer| self.events[*writer].releases_to(event))
            .fold(self.before_next(event.thread), |all, writer| {
                all | self.before[writer] | 1 << writer
            })
    }

    fn happens_before(&self, first: usize, second: usize) -> bool {
        self.before[second] >> first & 1 == 1
    }

    /// Whether a new event that reads may take these bytes: no write comes between by happens-before, and it is not torn.
    pub fn may_read(&self, event: &Event) -> bool {
        let before = self.before_new(event);
        let mut one = INITIAL;
        for (address, writer) in (event.address..).zip(&event.from[..event.width as usize]) {
            let is_between = |write: usize| {
                write != usize::from(*writer)
                    && self.events[write].writes_byte(address)
                    && (*writer == INITIAL || self.happens_before(usize::from(*writer), write))
            };
            if members(before).any(is_between) {
                return false;
            }
            if *writer != INITIAL && event.is_tear_free() {
                let write = &self.events[usize::from(*writer)];
                if write.is_tear_free() && write.has_range_of(event) {
                    if one != INITIAL && one != *writer {
                        return false;
                    }
                    one = *writer;
                }
            }
        }
        true
    }

    /// Adds an event; false if the events have no order then.
    pub fn add(&mut self, event: Event) -> bool {
        let place = self.events.len();
        assert!(place < MAX_EVENTS, "more than {MAX_EVENTS} events");
        let before = self.before_new(&event);
        self.last[event.thread] = Some(place);
        self.events.push(event);
        self.before.push(before);
        self.order.add(before);
        (!event.reads || self.order_read(place))
            && (!event.writes || !event.is_atomic || self.order_write(place))
            && self.order.settle()
            && self.order.exists()
    }

    fn order_read(&mut self, read: usize) -> bool {
        (0..read).all(|other| !self.is_atomic_write(other) || self.order_pair(read, other))
    }

    fn order_write(&mut self, other: usize) -> bool {
        (0..other).all(|read| !self.events[read].reads || self.order_pair(read, other))
    }

    fn is_atomic_write(&self, event: usize) -> bool {
        self.events[event].writes && self.events[event].is_atomic
    }

    /// Keeps an atomic write from coming between a read and the writers that it takes from.
    fn order_pair(&mut self, read: usize, other: usize) -> bool {
        let (event, write) = (self.events[read], self.events[other]);
        let is_same = write.has_range_of(&event);
        if event.reads_initial() && event.is_atomic && is_same && !self.order.put(read, other) {
            return false;
        }
        members(event.writers())
            .all(|writer| writer == other || self.order_three(writer, other, read, is_same))
    }

    fn order_three(&mut self, writer: usize, other: usize, read: usize, is_same: bool) -> bool {
        let (event, from, write) = (self.events[read], self.events[writer], self.events[other]);
        let is_before = self.happens_before(writer, read);
        if from.is_atomic
            && is_before
            && self.happens_before(other, read)
            && from.has_range_of(&write)
            && !self.order.put(other, writer)
        {
            return false;
        }
        if !event.is_atomic || !is_same {
            return true;
        }
        if is_before && self.happens_before(writer, other) && !self.order.put(read, other) {
            return false;
        }
        if from.releases_to(&event) {
            self.order.keep_out(Between {
                writer,
                other,
                read,
            });
        }
        true
    }
}

//! The choices of the writers of a read.
use crate::code::Module;
use crate::graph::INITIAL;
use crate::order::members;
use crate::state::{Choice, State};
use crate::thread::Access;

pub struct Choices<'s> {
    module: &'s Module,
    state: &'s State,
    thread: usize,
    access: Access,
    /// Who may have written each byte.
    writers: Vec<Vec<u8>>,
    found: Vec<Choice>,
}

impl<'s> Choices<'s> {
    /// Those that keep the rules so far. Of those of a plain read that read one value, the ones with the least ties.
    pub fn of(module: &'s Module, state: &'s State, thread: usize, access: Access) -> Vec<Choice> {
        let writers = (access.address..access.address + access.width)
            .map(|byte| writers_of(state, thread, byte))
            .collect();
        let mut choices = Choices {
            module,
            state,
            thread,
            access,
            writers,
            found: Vec::new(),
        };
        choices.choose(0, [INITIAL; 8]);
        choices.found
    }

    fn choose(&mut self, byte: usize, from: [u8; 8]) {
        if byte == self.access.width as usize {
            return self.add(from);
        }
        for index in 0..self.writers[byte].len() {
            let mut more = from;
            more[byte] = self.writers[byte][index];
            if !self.is_torn(byte, &more) {
                self.choose(byte + 1, more);
            }
        }
    }

    /// Whether a byte and an earlier one are of different tear-free writes of the whole range.
    fn is_torn(&self, byte: usize, from: &[u8; 8]) -> bool {
        let access = &self.access;
        if !access.is_atomic && (access.width > 4 || access.address % access.width != 0) {
            return false;
        }
        let is_whole = |writer: u8| {
            writer != INITIAL && {
                let write = &self.state.graph.events[usize::from(writer)];
                write.is_tear_free()
                    && write.address == access.address
                    && write.width == access.width
            }
        };
        is_whole(from[byte])
            && from[..byte]
                .iter()
                .any(|earlier| *earlier != from[byte] && is_whole(*earlier))
    }

    fn value(&self, from: &[u8; 8]) -> u64 {
        (0..self.access.width).fold(0, |value, index| {
            let address = self.access.address + index;
            let byte = match from[index as usize] {
                INITIAL => self.module.data.get(&address).copied().unwrap_or(0),
                writer => self.state.graph.events[usize::from(writer)].byte(address),
            };
            value | u64::from(byte) << (8 * index)
        })
    }

    fn add(&mut self, from: [u8; 8]) {
        let graph = &self.state.graph;
        let event = self
            .state
            .event(self.thread, &self.access, self.value(&from), from);
        if !graph.may_read(&event) {
            return;
        }
        let mut ties = event.writers();
        if !event.is_atomic {
            let before = graph.before_next(self.thread);
            ties = members(ties & before)
                .filter(|writer| graph.events[*writer].is_atomic)
                .fold(0, |all, writer| all | 1 << writer);
        }
        let choice = Choice { event, ties };
        if !event.is_atomic {
            if self.found.iter().any(|other| choice.is_served_by(other)) {
                return;
            }
            self.found.retain(|other| !other.is_served_by(&choice));
        }
        self.found.push(choice);
    }
}

/// Who may have written a byte that a thread reads next: the writes after which no other one happens before the read, and
/// the initial memory if none does.
fn writers_of(state: &State, thread: usize, byte: u32) -> Vec<u8> {
    let graph = &state.graph;
    let writes = (0..graph.events.len()).filter(|event| graph.events[*event].writes_byte(byte));
    let before = graph.before_next(thread);
    let known: Vec<usize> = writes
        .clone()
        .filter(|write| before >> write & 1 == 1)
        .collect();
    let is_covered = |write: &usize| {
        known
            .iter()
            .any(|later| graph.before[*later] >> write & 1 == 1)
    };
    let initial = known.is_empty().then_some(INITIAL);
    initial
        .into_iter()
        .chain(
            writes
                .filter(|write| !is_covered(write))
                .map(|write| write as u8),
        )
        .collect()
}

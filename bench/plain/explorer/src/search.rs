//! The search for all outcomes: graphs are extended event by event.
use std::collections::BTreeSet;
use std::rc::Rc;

use crate::choices::Choices;
use crate::code::Module;
use crate::graph::{Event, MAX_EVENTS};
use crate::state::{Choice, Mark, State};
use crate::thread::{Access, End, Thread};

/// A read whose choices are being tried. It has to wait for later writes if another thread was seen to make one.
struct Tried {
    thread: usize,
    place: usize,
    access: Access,
    is_raced: bool,
}

/// When a read whose choices were tried waits for a further write.
#[derive(Clone, Copy, PartialEq, Eq)]
pub enum Marks {
    /// Only if another thread was seen to write what it reads.
    Lazy,
    Always,
}

pub struct Search<'m> {
    module: &'m Module,
    most: usize,
    marks: Marks,
    tried: Vec<Tried>,
    pub outcomes: BTreeSet<String>,
    pub graphs: u64,
    /// The threads that met the bound of events, and of steps.
    pub cut: BTreeSet<usize>,
    pub long: BTreeSet<usize>,
}

impl<'m> Search<'m> {
    /// Of at most some events of each thread.
    pub fn new(module: &'m Module, most: usize, marks: Marks) -> Self {
        Search {
            module,
            most,
            marks,
            tried: Vec::new(),
            outcomes: BTreeSet::new(),
            graphs: 0,
            cut: BTreeSet::new(),
            long: BTreeSet::new(),
        }
    }

    pub fn start(&mut self, threads: Vec<Thread>) {
        let count = threads.len();
        let mut state = State::new(threads);
        for thread in 0..count {
            self.go_on(&mut state, thread, None);
            state.note_turn(thread);
        }
        self.explore(state);
    }

    /// Runs a thread up to its next access, after it has read a value if it stands at an access.
    fn go_on(&mut self, state: &mut State, thread: usize, read: Option<u64>) {
        let running = Rc::make_mut(&mut state.threads[thread]);
        if let Some(value) = read {
            running.make_access(self.module, value);
        }
        state.next[thread] = running.next_access(self.module);
        if running.end == Some(End::Steps) {
            self.long.insert(thread);
        }
        if state.next[thread].is_some()
            && state.counts[thread] >= self.most.min(MAX_EVENTS / state.threads.len())
        {
            state.next[thread] = None;
            self.cut.insert(thread);
        }
    }

    /// Notes that a thread writes, for the reads of other threads that are being tried and do not happen before.
    fn note_write(&mut self, state: &State, thread: usize, address: u32, width: u32) {
        let before = state.graph.before_next(thread);
        for tried in &mut self.tried {
            let read = &tried.access;
            let overlaps = read.address < address + width && address < read.address + read.width;
            tried.is_raced |= tried.thread != thread && overlaps && before >> tried.place & 1 == 0;
        }
    }

    /// Adds an event and lets its thread go on; false if the events have no order then, or the turn is idle.
    fn add(&mut self, state: &mut State, event: Event) -> Added {
        if event.writes {
            self.note_write(state, event.thread, event.address, event.width);
            state.forget_turns(event.thread);
        }
        self.graphs += 1;
        state.counts[event.thread] += 1;
        state.marks[event.thread] = None;
        if !state.graph.add(event) {
            return Added::WithoutOrder;
        }
        self.go_on(state, event.thread, Some(event.value_read));
        if state.note_turn(event.thread) {
            Added::GoesOn
        } else {
            Added::Idle
        }
    }

    fn explore(&mut self, mut state: State) {
        loop {
            while let Some(event) = state.next_write() {
                self.add(&mut state, event);
            }
            let Some((thread, access, choices)) = self.next_read(&state) else {
                return self.finish(&state);
            };
            let has_to_wait = self.try_choices(&state, thread, access, &choices);
            let old = state.marks[thread].take();
            if !has_to_wait && old.is_none() {
                return;
            }
            let events = state.graph.events.len();
            let mut tried = old.map_or(Vec::new(), |mark| mark.tried.clone());
            tried.extend(choices);
            state.marks[thread] = Some(Rc::new(Mark { tried, events }));
        }
    }

    /// Explores what comes of each choice of a read; whether the read may also take from a later write.
    fn try_choices(
        &mut self,
        state: &State,
        thread: usize,
        access: Access,
        choices: &[Choice],
    ) -> bool {
        if access.may_write() {
            self.note_write(state, thread, access.address, access.width);
        }
        self.tried.push(Tried {
            thread,
            place: state.graph.events.len(),
            access,
            is_raced: false,
        });
        let (mut is_idle, mut goes_on) = (false, false);
        for choice in choices {
            let mut child = state.clone();
            match self.add(&mut child, choice.event) {
                Added::WithoutOrder => (),
                Added::Idle => is_idle = true,
                Added::GoesOn => {
                    goes_on = true;
                    self.explore(child);
                }
            }
        }
        let is_raced = self.tried.pop().expect("the read").is_raced;
        self.marks == Marks::Always || is_raced || is_idle || !goes_on
    }

    /// A thread that reads next, with choices: one without a mark, or with new choices.
    fn next_read(&self, state: &State) -> Option<(usize, Access, Vec<Choice>)> {
        let reads =
            || (0..state.next.len()).filter_map(|thread| Some((thread, state.next[thread]?)));
        if let Some((thread, access)) = reads().find(|(thread, _)| state.marks[*thread].is_none()) {
            return Some((
                thread,
                access,
                Choices::of(self.module, state, thread, access),
            ));
        }
        reads().find_map(|(thread, access)| {
            let choices = self.new_choices(state, thread, access);
            (!choices.is_empty()).then_some((thread, access, choices))
        })
    }

    fn new_choices(&self, state: &State, thread: usize, access: Access) -> Vec<Choice> {
        let mark = state.marks[thread].as_ref().expect("a mark");
        let overlaps = |event: &Event| {
            event.writes
                && event.address < access.address + access.width
                && access.address < event.address + event.width
        };
        if !state.graph.events[mark.events..].iter().any(overlaps) {
            return Vec::new();
        }
        let mut choices = Choices::of(self.module, state, thread, access);
        choices.retain(|choice| match access.is_atomic {
            true => choice
                .ties
                .checked_shr(mark.events as u32)
                .is_some_and(|new| new != 0),
            false => !mark.tried.iter().any(|other| choice.is_served_by(other)),
        });
        choices
    }

    /// Notes the outcome, if each thread ended.
    fn finish(&mut self, state: &State) {
        let ends: Option<Vec<String>> = state
            .threads
            .iter()
            .map(|thread| word(thread.end.as_ref()?))
            .collect();
        if let Some(ends) = ends {
            self.outcomes.insert(ends.join(" "));
        }
    }
}

enum Added {
    WithoutOrder,
    Idle,
    GoesOn,
}

fn word(end: &End) -> Option<String> {
    match end {
        End::Done(Some(value)) => Some(value.to_string()),
        End::Done(None) => Some("-".into()),
        End::Trap(kind) => Some(format!("trap:{kind}")),
        End::Steps => None,
    }
}

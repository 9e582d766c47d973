//! The data races of a log, by comparing all pairs of events: `races < DOC` reads a document of version 2 and prints a line
//! `race E W` for each, where W writes, and E only reads or stands later in the order than W. The lines are in the order of
//! E's place, then of the first byte that both access, then of W's place.
use std::collections::HashMap;
use std::fmt;
use std::io::Read;

/// A value of the documents: they have no others.
enum Value {
    Number(u64),
    Text(String),
    List(Vec<Value>),
}

/// What is left of a document's text.
struct Reader<'a> {
    rest: &'a [u8],
}

impl Reader<'_> {
    fn skip(&mut self) {
        while let Some((b' ' | b'\n' | b'\r' | b'\t', rest)) = self.rest.split_first() {
            self.rest = rest;
        }
    }

    /// Whether the next byte is this one, which is then read.
    fn takes(&mut self, byte: u8) -> bool {
        self.skip();
        match self.rest.split_first() {
            Some((first, rest)) if *first == byte => {
                self.rest = rest;
                true
            }
            _ => false,
        }
    }

    fn take_while(&mut self, test: impl Fn(u8) -> bool) -> String {
        let count = self.rest.iter().take_while(|byte| test(**byte)).count();
        let (taken, rest) = self.rest.split_at(count);
        self.rest = rest;
        String::from_utf8_lossy(taken).into_owned()
    }

    fn value(&mut self) -> Value {
        if self.takes(b'[') {
            return Value::List(self.items());
        }
        if self.takes(b'"') {
            let text = self.take_while(|byte| byte != b'"');
            assert!(self.takes(b'"'), "a text has no end");
            return Value::Text(text);
        }
        let digits = self.take_while(|byte| byte.is_ascii_digit());
        Value::Number(digits.parse().expect("a number"))
    }

    fn items(&mut self) -> Vec<Value> {
        let mut items = Vec::new();
        if self.takes(b']') {
            return items;
        }
        loop {
            items.push(self.value());
            if self.takes(b']') {
                return items;
            }
            assert!(self.takes(b','), "a comma is missing");
        }
    }
}

impl Value {
    fn number(&self) -> u64 {
        match self {
            Value::Number(number) => *number,
            _ => panic!("no number"),
        }
    }

    fn text(&self) -> &str {
        match self {
            Value::Text(text) => text,
            _ => panic!("no text"),
        }
    }

    fn list(&self) -> &[Value] {
        match self {
            Value::List(items) => items,
            _ => panic!("no list"),
        }
    }

    /// The event that it names, None for the initial memory.
    fn key(&self) -> Option<Key> {
        match self.list() {
            [thread, number] => Some(Key {
                thread: thread.number(),
                number: number.number(),
            }),
            _ => None,
        }
    }
}

#[derive(Clone, Copy, PartialEq, Eq, Hash)]
struct Key {
    thread: u64,
    number: u64,
}

impl fmt::Display for Key {
    fn fmt(&self, f: &mut fmt::Formatter) -> fmt::Result {
        write!(f, "{}.{}", self.thread, self.number)
    }
}

struct Event {
    key: Key,
    writes: bool,
    atomic: bool,
    address: u64,
    width: u64,
    /// Of each byte read its writer, if that is an event.
    writers: Vec<Option<Key>>,
}

impl Event {
    fn of(key: Key, parts: &[Value]) -> Event {
        let writers = match parts[0].text() {
            "w" => Vec::new(),
            _ => parts[parts.len() - 1].list().iter().map(Value::key).collect(),
        };
        Event {
            key,
            writes: parts[0].text() != "r",
            atomic: parts[1].text() == "sc",
            address: parts[2].number(),
            width: parts[3].number(),
            writers,
        }
    }

    fn same_range(&self, other: &Event) -> bool {
        self.address == other.address && self.width == other.width
    }

    fn overlaps(&self, other: &Event) -> bool {
        (self.address..self.address + self.width)
            .any(|byte| other.address <= byte && byte < other.address + other.width)
    }
}

/// The events of a document in its order.
fn events_of(document: &Value) -> Vec<Event> {
    let parts = document.list();
    assert!(
        parts[0].text() == "wasm-litmus-log" && parts[1].number() == 2,
        "no document of version 2"
    );
    let mut events = HashMap::new();
    for (thread, log) in parts[2].list().iter().enumerate() {
        for (number, event) in log.list()[4].list().iter().enumerate() {
            let key = Key {
                thread: thread as u64,
                number: number as u64,
            };
            events.insert(key, Event::of(key, event.list()));
        }
    }
    let order = parts[3].list().iter();
    order
        .map(|id| events.remove(&id.key().expect("an event")).expect("an event once"))
        .collect()
}

/// For each event the later ones of its thread next to it, and those that it synchronizes with.
fn edges_of(events: &[Event]) -> Vec<Vec<usize>> {
    let place: HashMap<Key, usize> = events
        .iter()
        .enumerate()
        .map(|(place, event)| (event.key, place))
        .collect();
    let mut edges = vec![Vec::new(); events.len()];
    for (to, event) in events.iter().enumerate() {
        if event.key.number > 0 {
            let previous = Key {
                number: event.key.number - 1,
                ..event.key
            };
            edges[place[&previous]].push(to);
        }
        for writer in event.writers.iter().flatten() {
            let from = place[writer];
            if events[from].atomic && event.atomic && events[from].same_range(event) && !edges[from].contains(&to) {
                edges[from].push(to);
            }
        }
    }
    edges
}

/// For each event a bit for each that it happens before: edges are followed until nothing is new.
fn closure_of(edges: &[Vec<usize>]) -> Vec<Vec<u64>> {
    let words = edges.len().div_ceil(64);
    let mut reached = vec![vec![0u64; words]; edges.len()];
    loop {
        let mut is_new = false;
        for from in (0..edges.len()).rev() {
            let mut row = reached[from].clone();
            for to in &edges[from] {
                row[to / 64] |= 1 << (to % 64);
                for (word, more) in row.iter_mut().zip(&reached[*to]) {
                    *word |= more;
                }
            }
            is_new |= row != reached[from];
            reached[from] = row;
        }
        if !is_new {
            return reached;
        }
    }
}

fn main() {
    let mut text = Vec::new();
    std::io::stdin().read_to_end(&mut text).expect("a document");
    let events = events_of(&Reader { rest: &text }.value());
    let reached = closure_of(&edges_of(&events));
    let before = |from: usize, to: usize| reached[from][to / 64] >> (to % 64) & 1 == 1;
    let mut found = Vec::new();
    for (e, event) in events.iter().enumerate() {
        for (w, write) in events.iter().enumerate() {
            let named = e != w && write.writes && (!event.writes || w < e);
            let weak = !event.atomic || !write.atomic || !event.same_range(write);
            if named && weak && event.overlaps(write) && !before(e, w) && !before(w, e) {
                found.push((e, event.address.max(write.address), w));
            }
        }
    }
    found.sort_unstable();
    let lines: String = found
        .iter()
        .map(|(e, _, w)| format!("race {} {}\n", events[*e].key, events[*w].key))
        .collect();
    print!("{lines}");
}

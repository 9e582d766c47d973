//! The search for a witness. An event is its place among all, thread after thread; INIT is the initial memory.
//!
//! Two relations are kept as clocks, for each event how many events of each thread come before it: what happens before
//! it, and what stands before it in the order. Rules extend them until nothing is new; then the writer of a read is
//! assumed, or one that it isn't, and so on. What is assumed is undone by a trail.
use crate::document::Log;
use crate::index::{byte_left, byte_of, count_below, is_tear_free, Index};

mod clocks;
mod decisions;
mod guess;
mod leaf;
mod options;
mod root;

pub const INIT: i32 = -1;
/// The most rounds in which what is known at the root is computed anew.
const ROUNDS: usize = 4;
/// The write with which a read synchronizes isn't decided, or there is none; the writer of a byte isn't decided.
const OPEN: i32 = -3;
const NONE: i32 = -2;
const UNSET: i32 = -2;

/// What was before a change.
#[derive(Clone, Copy, Debug)]
enum Undo {
    Happens(usize, u32),
    Stands(usize, u32),
    Source(usize, i32),
    Excluded(usize),
    Reader(usize),
    Later(usize),
    Writer(usize, i32),
    Updated(usize, i32),
    HasSource(usize),
    Decided,
}

/// What can be assumed: with which write a read synchronizes or not, that there is none or some, the writer of a byte, an
/// order.
#[derive(Clone, Copy, Debug)]
enum Choice {
    Source(usize, usize),
    NotSource(usize, usize),
    NoSource(usize),
    SomeSource(usize),
    Writer(usize, usize, i32),
    Order(usize, usize),
}

pub enum Answer {
    Found(Vec<Vec<i32>>, Vec<usize>),
    None,
    GaveUp,
}

pub struct Search<'a> {
    pub log: &'a Log,
    pub index: &'a Index,
    threads: usize,
    count: usize,
    happens: Vec<u32>,
    stands: Vec<u32>,
    sources: Vec<i32>,
    has_source: Vec<bool>,
    excluded: Vec<Vec<u32>>,
    updated_by: Vec<i32>,
    readers: Vec<Vec<u32>>,
    later: Vec<Vec<u32>>,
    writer_of: Vec<i32>,
    decided_bytes: Vec<(usize, usize)>,
    support: Vec<i32>,
    supported: Vec<Vec<u32>>,
    trail: Vec<Undo>,
    moved: Vec<u32>,
    moved_happens: Vec<u32>,
    is_moved: Vec<bool>,
    is_moved_happens: Vec<bool>,
    waiting: Vec<u32>,
    is_waiting: Vec<bool>,
    place: Vec<u32>,
    guessed_source: Vec<i32>,
    bulk: bool,
    edges: u64,
    last_failed: Option<usize>,
    checked_at: Option<usize>,
    guessed_writers: Vec<Vec<i32>>,
    is_causal: bool,
}
type Kept = Result<(), ()>;

impl<'a> Search<'a> {
    pub fn new(l: &'a Log, ix: &'a Index, is_causal: bool) -> Search<'a> {
        let n = l.events.len();
        let nt = ix.threads;
        Search {
            log: l,
            index: ix,
            threads: nt,
            count: n,
            happens: vec![0; n * nt],
            stands: vec![0; n * nt],
            sources: l
                .events
                .iter()
                .map(|e| {
                    if e.reads && (e.sc || (is_causal && is_tear_free(e))) {
                        OPEN
                    } else {
                        NONE
                    }
                })
                .collect(),
            has_source: vec![false; n],
            excluded: vec![vec![]; n],
            updated_by: vec![-1; n],
            readers: vec![vec![]; n],
            later: vec![vec![]; n],
            writer_of: vec![UNSET; ix.bytes],
            decided_bytes: vec![],
            support: vec![UNSET; ix.bytes],
            supported: vec![vec![]; n],
            trail: vec![],
            moved: vec![],
            moved_happens: vec![],
            is_moved: vec![false; n],
            is_moved_happens: vec![false; n],
            waiting: vec![],
            is_waiting: vec![false; n],
            place: vec![0; n],
            guessed_source: vec![INIT; n],
            bulk: true,
            edges: 0,
            last_failed: None,
            checked_at: None,
            guessed_writers: vec![],
            is_causal,
        }
    }
    fn id(&self, t: usize, n: u32) -> usize {
        self.log.base[t] + n as usize
    }
    fn happens_before(&self, a: usize, b: usize) -> bool {
        let e = &self.log.events[a];
        self.happens[b * self.threads + e.t] > e.n
    }
    fn stands_before(&self, a: usize, b: usize) -> bool {
        let e = &self.log.events[a];
        self.stands[b * self.threads + e.t] > e.n
    }
    fn id_happens_before(&self, a: i32, b: usize) -> bool {
        a < 0 || self.happens_before(a as usize, b)
    }
    fn synchronizes(&self, w: i32, r: usize) -> bool {
        if w < 0 || self.index.range_of[w as usize] != self.index.range_of[r] {
            return false;
        }
        let (a, b) = (&self.log.events[w as usize], &self.log.events[r]);
        (a.sc && b.sc) || (self.is_causal && is_tear_free(a) && is_tear_free(b))
    }
    fn are_atomic(&self, u: usize, r: usize) -> bool {
        self.log.events[u].sc && self.log.events[r].sc
    }
    fn is_like(&self, w: i32, r: usize) -> bool {
        w >= 0
            && self.index.range_of[w as usize] == self.index.range_of[r]
            && is_tear_free(&self.log.events[w as usize])
    }
    fn fits(&self, w: i32, r: usize, k: u32) -> bool {
        let e = &self.log.events[r];
        let b = if w < 0 {
            Some(self.log.init_at(e.addr + k))
        } else {
            byte_left(&self.log.events[w as usize], e.addr + k)
        };
        b == Some(byte_of(e.rv, k)) && w != r as i32
    }
    fn byte_id(&self, r: usize, k: u32) -> usize {
        self.index.byte[&(self.log.events[r].addr + k)] as usize
    }

    /// A witness, or that there is none, or nothing after so many nodes.
    pub fn search(&mut self, budget: u64, judge: &dyn Fn(&Vec<Vec<i32>>, &Vec<usize>) -> bool) -> Answer {
        let ok = self.root();
        if ok.is_err() {
            return Answer::None;
        }
        let gorder = self.guess();
        let by = std::mem::take(&mut self.guessed_writers);
        if judge(&by, &gorder) {
            return Answer::Found(by, gorder);
        }
        let mut nodes = 0u64;
        let mut fails_since = 0u64;
        let mut wait = 1u64;
        let mut frames: Vec<(usize, std::vec::IntoIter<Choice>)> = vec![];
        let mut good = true;
        loop {
            if good {
                match self.next(frames.len()) {
                    Ok((by, order)) => {
                        if judge(&by, &order) {
                            return Answer::Found(by, order);
                        }
                        self.clear();
                    }
                    Err(alts) => {
                        self.clear();
                        frames.push((self.trail.len(), alts.into_iter()))
                    }
                }
            }
            // the next alternative
            let a = loop {
                let frames_len = frames.len();
                let Some((mark, it)) = frames.last_mut() else {
                    return Answer::None;
                };
                let mark = *mark;
                let a = it.next();
                self.undo(mark);
                if self.checked_at.map_or(false, |d| frames_len <= d) {
                    self.checked_at = None
                }
                match a {
                    Some(a) => break a,
                    None => {
                        frames.pop();
                    }
                }
            };
            if nodes == budget {
                return Answer::GaveUp;
            }
            nodes += 1;
            good = self.apply(a).and_then(|_| self.propagate()).is_ok();
            if !good {
                self.clear();
                match a {
                    Choice::Source(r, _)
                    | Choice::NoSource(r)
                    | Choice::NotSource(r, _)
                    | Choice::SomeSource(r)
                    | Choice::Writer(r, _, _) => self.last_failed = Some(r),
                    _ => (),
                }
                fails_since += 1;
            } else if fails_since >= wait {
                fails_since = 0;
                wait += 1;
                let o = self.guess();
                let by = std::mem::take(&mut self.guessed_writers);
                if judge(&by, &o) {
                    return Answer::Found(by, o);
                }
            }
        }
    }
}

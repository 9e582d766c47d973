//! The writes of a log, by range and by byte, by thread and by value.
use crate::document::{Access, Log};
use std::collections::{HashMap, HashSet};

pub type PerThread = Vec<Vec<u32>>;

pub struct Index {
    pub threads: usize,
    pub range_of: Vec<u32>,                               // range id of each event
    pub atomic_writes: Vec<PerThread>,                    // range: atomic writes of each thread
    pub atomic_writes_of: HashMap<(u32, u64), PerThread>, // (range, value): atomic writes that leave it
    pub whole_writes: Vec<PerThread>,                     // range: tear-free writes
    pub whole_writes_of: HashMap<(u32, u64), PerThread>,  // (range, value): tear-free writes that leave it
    pub byte: HashMap<u32, u32>,                          // address: byte id
    pub byte_writes: Vec<PerThread>,                      // byte: its writes
    pub byte_reads: Vec<PerThread>,                       // byte: its reads
    pub byte_writes_of: HashMap<(u32, u8), PerThread>,    // (byte, value): its writes
    pub is_whole: Vec<bool>,                              // range: no write but tear-free ones of this range touches it
    pub is_atomic: Vec<bool>,                             // range: no write but atomic ones of this range touches it
    pub first_byte: Vec<usize>,                           // event: first of its bytes in `fill`, `sup`
    pub bytes: usize,
}
pub fn count_below(v: &[u32], x: u32) -> usize {
    v.partition_point(|&n| n < x)
}
pub fn is_tear_free(e: &Access) -> bool {
    e.sc || (e.width <= 4 && e.addr % e.width == 0)
}
pub fn same(a: &Access, b: &Access) -> bool {
    a.addr == b.addr && a.width == b.width
}
pub fn byte_of(v: u64, k: u32) -> u8 {
    (v >> (8 * k)) as u8
}
pub fn byte_left(w: &Access, a: u32) -> Option<u8> {
    if w.writes && w.addr <= a && a < w.addr + w.width {
        Some(byte_of(w.wv, a - w.addr))
    } else {
        None
    }
}

impl Index {
    pub fn of(l: &Log) -> Index {
        let nt = l.len.len();
        let mut ids: HashMap<(u32, u32), u32> = HashMap::new();
        let mut ix = Index {
            threads: nt,
            range_of: vec![],
            atomic_writes: vec![],
            whole_writes: vec![],
            atomic_writes_of: HashMap::new(),
            whole_writes_of: HashMap::new(),
            byte: HashMap::new(),
            byte_writes: vec![],
            byte_reads: vec![],
            byte_writes_of: HashMap::new(),
            is_whole: vec![],
            is_atomic: vec![],
            first_byte: vec![],
            bytes: 0,
        };
        let per = || vec![vec![]; nt];
        for e in &l.events {
            let m = ids.len() as u32;
            let r = *ids.entry((e.addr, e.width)).or_insert(m);
            if r == m {
                ix.atomic_writes.push(per());
                ix.whole_writes.push(per())
            }
            ix.range_of.push(r);
            ix.first_byte.push(ix.bytes);
            if e.reads {
                ix.bytes += e.width as usize
            }
            if e.writes && e.sc {
                ix.atomic_writes[r as usize][e.t].push(e.n);
                ix.atomic_writes_of.entry((r, e.wv)).or_insert_with(per)[e.t].push(e.n)
            }
            if e.writes && is_tear_free(e) {
                ix.whole_writes[r as usize][e.t].push(e.n);
                ix.whole_writes_of.entry((r, e.wv)).or_insert_with(per)[e.t].push(e.n)
            }
            for k in 0..e.width {
                let m = ix.byte.len() as u32;
                let b = *ix.byte.entry(e.addr + k).or_insert(m);
                if b == m {
                    ix.byte_writes.push(per());
                    ix.byte_reads.push(per())
                }
                if e.writes {
                    ix.byte_writes[b as usize][e.t].push(e.n);
                    ix.byte_writes_of.entry((b, byte_of(e.wv, k))).or_insert_with(per)[e.t].push(e.n)
                }
                if e.reads {
                    ix.byte_reads[b as usize][e.t].push(e.n)
                }
            }
        }
        // which ranges are written only as a whole, tear-free
        let mut wr: HashMap<u32, HashSet<u32>> = HashMap::new(); // address: ranges of writes there
        for (i, e) in l.events.iter().enumerate() {
            if e.writes {
                for k in 0..e.width {
                    wr.entry(e.addr + k)
                        .or_default()
                        .insert(if is_tear_free(e) { ix.range_of[i] } else { u32::MAX });
                }
            }
        }
        ix.is_whole = vec![true; ids.len()];
        for ((a, w), r) in &ids {
            for k in 0..*w {
                if let Some(s) = wr.get(&(a + k)) {
                    if s.iter().any(|x| x != r) {
                        ix.is_whole[*r as usize] = false
                    }
                }
            }
        }
        ix.is_atomic = ix.is_whole.clone();
        for (i, e) in l.events.iter().enumerate() {
            if e.writes && !e.sc {
                ix.is_atomic[ix.range_of[i] as usize] = false
            }
        }
        ix
    }
}

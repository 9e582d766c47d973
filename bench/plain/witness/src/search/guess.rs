//! A run of one memory, as far as it goes, that keeps what is known.
use super::*;
use std::collections::HashMap;

impl Search<'_> {
    pub(super) fn guess(&mut self) -> Vec<usize> {
        let (n, nt) = (self.count, self.threads);
        let mut next = vec![0u32; nt];
        let mut mem: HashMap<u32, (u8, i32)> = HashMap::new();
        let mut by: Vec<Vec<i32>> = vec![vec![]; n];
        let mut last: Vec<i32> = vec![INIT; self.index.atomic_writes.len()];
        let mut pend: Vec<u32> = self
            .readers
            .iter()
            .map(|v| v.iter().filter(|&&r| self.log.events[r as usize].sc).count() as u32)
            .collect();
        let mut order = Vec::with_capacity(n);
        while order.len() < n {
            let mut best: Option<(i64, usize)> = None;
            for t in 0..nt {
                if next[t] as usize >= self.log.len[t] {
                    continue;
                }
                let e = self.id(t, next[t]);
                if (0..nt).any(|x| self.stands[e * nt + x] > next[x]) {
                    continue;
                }
                let ev = &self.log.events[e];
                let get = |a: u32| mem.get(&a).map(|x| x.0).unwrap_or_else(|| self.log.init_at(a));
                let hit = !ev.reads || (0..ev.width).all(|k| get(ev.addr + k) == byte_of(ev.rv, k));
                let mut score: i64 = 0;
                if !hit {
                    score -= 1000
                }
                if hit && !ev.writes {
                    score += 2000
                }
                if ev.writes {
                    if ev.sc {
                        let w = last[self.index.range_of[e] as usize];
                        if w >= 0 && pend[w as usize] > (self.sources[e] == w) as u32 {
                            score -= 500
                        }
                    }
                    // what follows in the thread, on the memory that this write leaves
                    let mut own: Vec<(u32, u8)> = (0..ev.width).map(|k| (ev.addr + k, byte_of(ev.wv, k))).collect();
                    for d in 1..7u32 {
                        if (next[t] + d) as usize >= self.log.len[t] {
                            score += 3 * (7 - d as i64);
                            break;
                        }
                        let f = &self.log.events[e + d as usize];
                        if f.reads {
                            let ok = (0..f.width).all(|k| {
                                let a = f.addr + k;
                                own.iter()
                                    .rev()
                                    .find(|x| x.0 == a)
                                    .map(|x| x.1)
                                    .unwrap_or_else(|| get(a))
                                    == byte_of(f.rv, k)
                            });
                            if !ok {
                                score -= 100 / d as i64;
                                break;
                            }
                            score += 3;
                        }
                        if f.writes {
                            for k in 0..f.width {
                                own.push((f.addr + k, byte_of(f.wv, k)))
                            }
                        }
                    }
                    // others that wait for it, or for what it overwrites
                    for x in 0..nt {
                        if x == t || next[x] as usize >= self.log.len[x] {
                            continue;
                        }
                        let f = &self.log.events[self.id(x, next[x])];
                        if f.reads && f.addr < ev.addr + ev.width && ev.addr < f.addr + f.width {
                            let after = (0..f.width).all(|k| {
                                let a = f.addr + k;
                                byte_left(ev, a).unwrap_or_else(|| get(a)) == byte_of(f.rv, k)
                            });
                            let now = (0..f.width).all(|k| get(f.addr + k) == byte_of(f.rv, k));
                            if after && !now {
                                score += 40
                            }
                            if now && !after {
                                score -= 60
                            }
                        }
                    }
                }
                if best.map_or(true, |b| score > b.0) {
                    best = Some((score, e))
                }
            }
            let (_, e) = best.unwrap();
            let ev = self.log.events[e];
            self.place[e] = order.len() as u32;
            if self.sources[e] >= 0 && ev.sc {
                pend[self.sources[e] as usize] -= 1
            }
            order.push(e);
            next[ev.t] += 1;
            if ev.reads {
                by[e] = (0..ev.width)
                    .map(|k| mem.get(&(ev.addr + k)).map_or(INIT, |x| x.1))
                    .collect();
                self.guessed_source[e] = by[e][0];
                if self.guessed_source[e] >= 0 && !self.synchronizes(self.guessed_source[e], e) {
                    self.guessed_source[e] = INIT
                }
            }
            if ev.writes {
                for k in 0..ev.width {
                    mem.insert(ev.addr + k, (byte_of(ev.wv, k), e as i32));
                }
                if ev.sc {
                    last[self.index.range_of[e] as usize] = e as i32
                }
            }
        }
        self.guessed_writers = by;
        order
    }
}

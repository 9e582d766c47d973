//! What comes before what, as clocks.
use super::*;

impl Search<'_> {
    pub(super) fn note_moved(&mut self, e: usize) {
        if !self.is_moved[e] {
            self.is_moved[e] = true;
            self.moved.push(e as u32)
        }
    }
    pub(super) fn note_moved_happens(&mut self, e: usize) {
        if !self.is_moved_happens[e] {
            self.is_moved_happens[e] = true;
            self.moved_happens.push(e as u32)
        }
    }
    pub(super) fn look_again(&mut self, e: usize) {
        if !self.is_waiting[e] {
            self.is_waiting[e] = true;
            self.waiting.push(e as u32)
        }
    }
    // raises the clock of b by what is before a, and a itself
    pub(super) fn raise(&mut self, hb: bool, a: usize, b: usize) -> Result<bool, ()> {
        let nt = self.threads;
        let (ta, na) = (self.log.events[a].t, self.log.events[a].n + 1);
        let arr = if hb { &mut self.happens } else { &mut self.stands };
        let mut ch = false;
        for t in 0..nt {
            let mut x = arr[a * nt + t];
            if t == ta && na > x {
                x = na
            }
            let old = arr[b * nt + t];
            if x > old {
                self.trail.push(if hb {
                    Undo::Happens(b * nt + t, old)
                } else {
                    Undo::Stands(b * nt + t, old)
                });
                arr[b * nt + t] = x;
                ch = true
            }
        }
        let eb = &self.log.events[b];
        if arr[b * nt + eb.t] > eb.n {
            return Err(());
        }
        Ok(ch)
    }
    pub(super) fn spread(&mut self, hb: bool, b: usize) -> Kept {
        let mut work = vec![b];
        while let Some(e) = work.pop() {
            if hb {
                self.note_moved_happens(e)
            } else {
                self.note_moved(e)
            }
            let ev = self.log.events[e];
            if (ev.n as usize) + 1 < self.log.len[ev.t] {
                if self.raise(hb, e, e + 1)? {
                    work.push(e + 1)
                }
            }
            for i in 0..self.readers[e].len() {
                let r = self.readers[e][i] as usize;
                if self.raise(hb, e, r)? {
                    work.push(r)
                }
            }
            if !hb {
                for i in 0..self.later[e].len() {
                    let r = self.later[e][i] as usize;
                    if self.raise(hb, e, r)? {
                        work.push(r)
                    }
                }
            }
        }
        Ok(())
    }
    pub(super) fn edge(&mut self, a: usize, b: usize) -> Kept {
        if a == b {
            return Err(());
        }
        if self.stands_before(a, b) {
            return Ok(());
        }
        if self.stands_before(b, a) {
            return Err(());
        }
        self.edges += 1;
        self.later[a].push(b as u32);
        self.trail.push(Undo::Later(a));
        if self.bulk {
            return Ok(());
        }
        if self.raise(false, a, b)? {
            self.spread(false, b)?
        }
        Ok(())
    }
    // are_atomic closures from scratch; Err if there is a cycle
    pub(super) fn rebuild(&mut self) -> Kept {
        let (n, nt) = (self.count, self.threads);
        let mut deg = vec![0u32; n];
        for e in 0..n {
            if self.log.events[e].n > 0 {
                deg[e] += 1
            }
            for &r in &self.readers[e] {
                deg[r as usize] += 1
            }
            for &r in &self.later[e] {
                deg[r as usize] += 1
            }
        }
        self.happens.iter_mut().for_each(|x| *x = 0);
        self.stands.iter_mut().for_each(|x| *x = 0);
        let mut q: Vec<usize> = (0..n).filter(|&e| deg[e] == 0).collect();
        let mut done = 0;
        while let Some(e) = q.pop() {
            done += 1;
            let ev = self.log.events[e];
            let mut outs: Vec<(usize, bool)> = vec![];
            if (ev.n as usize) + 1 < self.log.len[ev.t] {
                outs.push((e + 1, true))
            }
            for &r in &self.readers[e] {
                outs.push((r as usize, true))
            }
            for &r in &self.later[e] {
                outs.push((r as usize, false))
            }
            for (b, hb) in outs {
                for t in 0..nt {
                    let m = if t == ev.t { ev.n + 1 } else { 0 };
                    let x = self.stands[e * nt + t].max(m);
                    if x > self.stands[b * nt + t] {
                        self.stands[b * nt + t] = x
                    }
                    if hb {
                        let x = self.happens[e * nt + t].max(m);
                        if x > self.happens[b * nt + t] {
                            self.happens[b * nt + t] = x
                        }
                    }
                }
                deg[b] -= 1;
                if deg[b] == 0 {
                    q.push(b)
                }
            }
        }
        if done < n {
            Err(())
        } else {
            Ok(())
        }
    }
}

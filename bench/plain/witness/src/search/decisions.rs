//! What is decided, what follows from it, and how it is undone.
use super::*;

impl Search<'_> {
    pub(super) fn decide_source(&mut self, r: usize, u: usize) -> Kept {
        if self.sources[r] != OPEN {
            return if self.sources[r] == u as i32 { Ok(()) } else { Err(()) };
        }
        self.trail.push(Undo::Source(r, OPEN));
        self.sources[r] = u as i32;
        if self.log.events[r].writes {
            if self.updated_by[u] >= 0 && self.updated_by[u] != r as i32 {
                return Err(());
            }
            self.trail.push(Undo::Updated(u, self.updated_by[u]));
            self.updated_by[u] = r as i32;
        }
        self.readers[u].push(r as u32);
        self.trail.push(Undo::Reader(u));
        if self.bulk {
            return Ok(());
        }
        if self.raise(true, u, r)? {
            self.spread(true, r)?
        }
        if self.raise(false, u, r)? {
            self.spread(false, r)?
        }
        self.note_moved(r);
        self.order_after(u, r)?;
        self.look_again(r);
        Ok(())
    }
    // no atomic write of the range is between u and r: r comes before those after u
    pub(super) fn order_after(&mut self, u: usize, r: usize) -> Kept {
        if !self.are_atomic(u, r) {
            return self.order_by_writer(r, u as i32);
        }
        let rg = self.index.range_of[r] as usize;
        let (tu, nu) = (self.log.events[u].t, self.log.events[u].n);
        for t in 0..self.threads {
            let v = &self.index.atomic_writes[rg][t];
            let p = v.partition_point(|&n| self.stands[self.id(t, n) * self.threads + tu] <= nu);
            if p < v.len() {
                let mut x = self.id(t, v[p]);
                if x == r {
                    if p + 1 < v.len() {
                        x = self.id(t, v[p + 1])
                    } else {
                        continue;
                    }
                }
                self.edge(r, x)?
            }
        }
        Ok(())
    }
    pub(super) fn decide_none(&mut self, r: usize) -> Kept {
        if self.sources[r] != OPEN {
            return if self.sources[r] == NONE { Ok(()) } else { Err(()) };
        }
        self.trail.push(Undo::Source(r, OPEN));
        self.sources[r] = NONE;
        self.look_again(r);
        Ok(())
    }
    pub(super) fn decide_byte(&mut self, r: usize, k: usize, w: i32) -> Kept {
        let at = self.index.first_byte[r] + k;
        if self.writer_of[at] != UNSET {
            return if self.writer_of[at] == w { Ok(()) } else { Err(()) };
        }
        self.trail.push(Undo::Writer(at, UNSET));
        self.writer_of[at] = w;
        if w >= 0 {
            self.decided_bytes.push((r, k));
            self.trail.push(Undo::Decided)
        }
        self.order_by_byte(r, k)?;
        self.look_again(r);
        Ok(())
    }
    // cases 2 and 3 for a decided byte
    pub(super) fn order_by_byte(&mut self, r: usize, k: usize) -> Kept {
        let w = self.writer_of[self.index.first_byte[r] + k];
        self.order_by_writer(r, w)
    }
    pub(super) fn order_by_writer(&mut self, r: usize, w: i32) -> Kept {
        if !self.id_happens_before(w, r) {
            return Ok(());
        }
        if w >= 0 && self.log.events[w as usize].sc {
            let rg = self.index.range_of[w as usize] as usize;
            for t in 0..self.threads {
                let v = &self.index.atomic_writes[rg][t];
                let p = count_below(v, self.happens[r * self.threads + t]);
                if p > 0 {
                    let x = self.id(t, v[p - 1]);
                    if x != w as usize {
                        self.edge(x, w as usize)?
                    }
                }
            }
        }
        if self.log.events[r].sc {
            let rg = self.index.range_of[r] as usize;
            for t in 0..self.threads {
                let v = &self.index.atomic_writes[rg][t];
                let p = if w < 0 {
                    0
                } else {
                    let (tw, nw) = (self.log.events[w as usize].t, self.log.events[w as usize].n);
                    v.partition_point(|&n| self.happens[self.id(t, n) * self.threads + tw] <= nw)
                };
                if p < v.len() {
                    let mut x = self.id(t, v[p]);
                    if x == r {
                        if p + 1 < v.len() {
                            x = self.id(t, v[p + 1])
                        } else {
                            continue;
                        }
                    }
                    self.edge(r, x)?
                }
            }
        }
        Ok(())
    }
    // no atomic write of the range is between a read and its synchronizing writer, as far as the order is known
    pub(super) fn order_beside(&mut self, e: usize) -> Kept {
        let ev = self.log.events[e];
        if !ev.sc {
            return Ok(());
        }
        let rg = self.index.range_of[e] as usize;
        let u = self.sources[e];
        for t in 0..self.threads {
            let v = &self.index.atomic_writes[rg][t];
            if v.is_empty() {
                continue;
            }
            let p = count_below(v, self.stands[e * self.threads + t]);
            if p == 0 {
                continue;
            }
            let x = self.id(t, v[p - 1]);
            if ev.reads && u >= 0 && x != u as usize && self.log.events[u as usize].sc {
                self.edge(x, u as usize)?
            }
            if ev.writes {
                for i in 0..self.readers[x].len() {
                    let r = self.readers[x][i] as usize;
                    if r != e && self.log.events[r].sc {
                        self.edge(r, e)?
                    }
                }
            }
        }
        Ok(())
    }
    pub(super) fn supports(&mut self, r: usize, a: &Vec<(u32, i32)>) {
        for &(k, w) in a {
            self.support[self.index.first_byte[r] + k as usize] = w;
            if w >= 0 && self.supported[w as usize].last() != Some(&(r as u32)) {
                self.supported[w as usize].push(r as u32)
            }
        }
    }
    // whether the last assignment still stands (all bytes without a synchronizing writer)
    pub(super) fn support_stands(&self, r: usize) -> bool {
        let e = &self.log.events[r];
        let mut like = UNSET;
        for k in 0..e.width {
            let at = self.index.first_byte[r] + k as usize;
            let w = self.support[at];
            if w == UNSET
                || (self.writer_of[at] != UNSET && self.writer_of[at] != w)
                || !self.is_coherent(w, r, k)
                || (w < 0 && !self.can_be_init(r))
            {
                return false;
            }
            if is_tear_free(e) && self.is_like(w, r) {
                if like != UNSET && like != w {
                    return false;
                }
                like = w
            }
        }
        true
    }
    // what a read can still do: fails if nothing, decides if one thing
    pub(super) fn check(&mut self, r: usize) -> Kept {
        let e = self.log.events[r];
        if !e.reads {
            return Ok(());
        }
        if self.sources[r] == OPEN {
            let mut got: Vec<usize> = vec![];
            self.each_source(r, &mut |u| {
                got.push(u);
                got.len() == 2
            });
            if got.len() == 2 {
                return Ok(());
            }
            let none = self.can_have_none(r);
            match (got.len(), none) {
                (0, false) => Err(()),
                (1, false) => self.decide_source(r, got[0]),
                (0, true) => self.decide_none(r),
                _ => Ok(()),
            }
        } else if self.sources[r] >= 0 {
            let u = self.sources[r] as usize;
            let m = self.missing_bytes(u, r);
            if m == 0 {
                return Ok(());
            }
            if m == self.all_bytes(r) || self.index.is_whole[self.index.range_of[r] as usize] {
                return Err(());
            }
            match self.writers_for(r, m, false, false, false) {
                None => Err(()),
                Some(_) => self.force_bytes(r, m, false, false),
            }
        } else {
            if !self.support_stands(r) {
                match self.writers_for(r, self.all_bytes(r), true, true, false) {
                    None => return Err(()),
                    Some(a) => self.supports(r, &a),
                }
            }
            // an atomic read has to know what it must not have missed
            if e.sc {
                let m = self.all_bytes(r);
                self.force_bytes(r, m, true, true)?
            }
            Ok(())
        }
    }
    // decides each byte for which one writer is byte_left
    pub(super) fn force_bytes(&mut self, r: usize, m: u32, init: bool, likes: bool) -> Kept {
        for k in 0..self.log.events[r].width {
            if m >> k & 1 == 0 || self.writer_of[self.index.first_byte[r] + k as usize] != UNSET {
                continue;
            }
            let mut got: Vec<i32> = vec![];
            self.others(r, k, init, &mut |w| {
                if likes || !self.is_like(w, r) {
                    got.push(w)
                }
                got.len() == 2
            });
            if got.is_empty() {
                return Err(());
            }
            if got.len() == 1 {
                self.decide_byte(r, k as usize, got[0])?
            }
        }
        Ok(())
    }
    pub(super) fn propagate(&mut self) -> Kept {
        loop {
            if let Some(e) = self.moved.pop() {
                let e = e as usize;
                self.is_moved[e] = false;
                self.order_beside(e)?;
                if self.log.events[e].reads && self.sources[e] == OPEN {
                    self.look_again(e)
                }
                if self.log.events[e].sc && self.log.events[e].reads && self.sources[e] == NONE {
                    self.look_again(e)
                }
                continue;
            }
            if let Some(e) = self.moved_happens.pop() {
                let e = e as usize;
                self.is_moved_happens[e] = false;
                let ev = self.log.events[e];
                if ev.reads {
                    self.look_again(e)
                }
                if ev.writes {
                    for k in 0..ev.width {
                        let b = self.index.byte[&(ev.addr + k)] as usize;
                        let mine = &self.index.byte_writes[b][ev.t];
                        let p = mine.partition_point(|&n| n <= ev.n);
                        let next = if p < mine.len() { mine[p] } else { u32::MAX };
                        for t in 0..self.threads {
                            let v = &self.index.byte_reads[b][t];
                            if v.is_empty() {
                                continue;
                            }
                            let lo = v.partition_point(|&n| self.happens[self.id(t, n) * self.threads + ev.t] <= ev.n);
                            for i in lo..v.len() {
                                let x = self.id(t, v[i]);
                                if self.happens[x * self.threads + ev.t] > next {
                                    break;
                                }
                                self.look_again(x)
                            }
                        }
                    }
                    for i in 0..self.supported[e].len() {
                        let r = self.supported[e][i] as usize;
                        self.look_again(r)
                    }
                }
                if ev.reads {
                    self.rules_of(e)?
                }
                continue;
            }
            if let Some(r) = self.waiting.pop() {
                self.is_waiting[r as usize] = false;
                self.check(r as usize)?;
                continue;
            }
            return Ok(());
        }
    }
    // cases 2 and 3 for what is decided of a read
    pub(super) fn rules_of(&mut self, r: usize) -> Kept {
        for k in 0..self.log.events[r].width as usize {
            if self.writer_of[self.index.first_byte[r] + k] >= 0 {
                self.order_by_byte(r, k)?
            }
        }
        if self.sources[r] >= 0 && !self.are_atomic(self.sources[r] as usize, r) {
            self.order_by_writer(r, self.sources[r])?
        }
        Ok(())
    }
    pub(super) fn clear(&mut self) {
        for e in self.moved.drain(..) {
            self.is_moved[e as usize] = false
        }
        for e in self.moved_happens.drain(..) {
            self.is_moved_happens[e as usize] = false
        }
        for e in self.waiting.drain(..) {
            self.is_waiting[e as usize] = false
        }
    }
    pub(super) fn undo(&mut self, mark: usize) {
        while self.trail.len() > mark {
            match self.trail.pop().unwrap() {
                Undo::Happens(i, v) => self.happens[i] = v,
                Undo::Stands(i, v) => self.stands[i] = v,
                Undo::Source(r, v) => self.sources[r] = v,
                Undo::Excluded(r) => {
                    self.excluded[r].pop();
                }
                Undo::Reader(u) => {
                    self.readers[u].pop();
                }
                Undo::Later(u) => {
                    self.later[u].pop();
                }
                Undo::Writer(i, v) => self.writer_of[i] = v,
                Undo::Updated(u, v) => self.updated_by[u] = v,
                Undo::HasSource(r) => self.has_source[r] = false,
                Undo::Decided => {
                    self.decided_bytes.pop();
                }
            }
        }
    }
    pub(super) fn apply(&mut self, a: Choice) -> Kept {
        match a {
            Choice::Source(r, u) => self.decide_source(r, u),
            Choice::NotSource(r, u) => {
                self.excluded[r].push(u as u32);
                self.trail.push(Undo::Excluded(r));
                self.look_again(r);
                Ok(())
            }
            Choice::NoSource(r) => self.decide_none(r),
            Choice::SomeSource(r) => {
                if !self.has_source[r] {
                    self.has_source[r] = true;
                    self.trail.push(Undo::HasSource(r))
                }
                self.look_again(r);
                Ok(())
            }
            Choice::Writer(r, k, w) => self.decide_byte(r, k, w),
            Choice::Order(a, b) => self.edge(a, b),
        }
    }
}

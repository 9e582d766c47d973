//! Writers and an order where nothing is left to decide, or what to assume next.
use super::*;

impl Search<'_> {
    // writers for all bytes; Err(r, k): a byte whose writer has to be chosen
    pub(super) fn writers(&self) -> Result<Vec<Vec<i32>>, Vec<(usize, usize)>> {
        let mut by = vec![vec![]; self.count];
        let mut unsettled = vec![];
        for r in 0..self.count {
            let e = &self.log.events[r];
            if !e.reads {
                continue;
            }
            let w = e.width as usize;
            let (mut m, init, likes) = (self.all_bytes(r), self.sources[r] < 0, self.sources[r] < 0);
            let mut row = vec![UNSET; w];
            if self.sources[r] >= 0 {
                m = self.missing_bytes(self.sources[r] as usize, r);
                for k in 0..w {
                    if m >> k & 1 == 0 {
                        row[k] = self.sources[r]
                    }
                }
            }
            match self
                .writers_for(r, m & !self.decided(r), init, likes, true)
                .and_then(|a| if self.are_one_like(r, &a) { Some(a) } else { None })
            {
                Some(a) => {
                    for (k, x) in a {
                        row[k as usize] = x
                    }
                    for k in 0..w {
                        if row[k] == UNSET {
                            row[k] = self.writer_of[self.index.first_byte[r] + k]
                        }
                    }
                }
                None => {
                    // the first undecided byte without a free writer of another range, or the first undecided one
                    let open: Vec<usize> = (0..w)
                        .filter(|&k| m >> k & 1 == 1 && self.writer_of[self.index.first_byte[r] + k] == UNSET)
                        .collect();
                    let bad = open.iter().copied().find(|&k| {
                        !self.others(r, k as u32, init, &mut |x| {
                            !(is_tear_free(e) && self.is_like(x, r)) && self.free(x, r)
                        })
                    });
                    unsettled.push((r, bad.unwrap_or(open[0])));
                }
            }
            by[r] = row;
        }
        if !unsettled.is_empty() {
            return Err(unsettled);
        }
        Ok(by)
    }
    pub(super) fn decided(&self, r: usize) -> u32 {
        (0..self.log.events[r].width)
            .filter(|&k| self.writer_of[self.index.first_byte[r] + k as usize] != UNSET)
            .fold(0, |m, k| m | 1 << k)
    }
    pub(super) fn are_one_like(&self, r: usize, a: &Vec<(u32, i32)>) -> bool {
        let e = &self.log.events[r];
        if !is_tear_free(e) {
            return true;
        }
        let mut cap = UNSET;
        for k in 0..e.width {
            let d = self.writer_of[self.index.first_byte[r] + k as usize];
            if d != UNSET && self.is_like(d, r) {
                if cap != UNSET && cap != d {
                    return false;
                }
                cap = d
            }
        }
        for &(_, d) in a {
            if self.is_like(d, r) {
                if cap != UNSET && cap != d {
                    return false;
                }
                cap = d
            }
        }
        true
    }
    // an order that keeps all edges; Err(w, v, r): v is between the synchronizing write w and its read r, and either way is open
    pub(super) fn order(&self) -> Result<Vec<usize>, (usize, usize, usize)> {
        let (n, nt) = (self.count, self.threads);
        let mut next = vec![0u32; nt];
        let mut last: Vec<i32> = vec![INIT; self.index.atomic_writes.len()];
        let mut pend: Vec<u32> = self
            .readers
            .iter()
            .map(|v| v.iter().filter(|&&r| self.log.events[r as usize].sc).count() as u32)
            .collect();
        let mut order = Vec::with_capacity(n);
        while order.len() < n {
            let mut best: Option<(u32, usize)> = None;
            let mut blocked: Option<(u32, usize)> = None;
            for t in 0..nt {
                if next[t] as usize >= self.log.len[t] {
                    continue;
                }
                let e = self.id(t, next[t]);
                if (0..nt).any(|x| self.stands[e * nt + x] > next[x]) {
                    continue;
                }
                let ev = &self.log.events[e];
                let mut b = false;
                if ev.sc && ev.writes {
                    let w = last[self.index.range_of[e] as usize];
                    if w >= 0 && pend[w as usize] > (self.sources[e] == w) as u32 {
                        b = true
                    }
                }
                let slot = if b { &mut blocked } else { &mut best };
                if slot.map_or(true, |x| self.place[e] < x.0) {
                    *slot = Some((self.place[e], e))
                }
            }
            let e = match (best, blocked) {
                (Some((_, e)), _) => e,
                (None, Some((_, v))) => {
                    let w = last[self.index.range_of[v] as usize] as usize;
                    let r = *self.readers[w]
                        .iter()
                        .find(|&&r| {
                            r as usize != v
                                && self.log.events[r as usize].sc
                                && self.log.events[r as usize].n >= next[self.log.events[r as usize].t]
                        })
                        .unwrap() as usize;
                    return Err((w, v, r));
                }
                _ => panic!("a cycle"),
            };
            let ev = self.log.events[e];
            if self.sources[e] >= 0 && ev.sc {
                pend[self.sources[e] as usize] -= 1
            }
            order.push(e);
            next[ev.t] += 1;
            if ev.writes && ev.sc {
                last[self.index.range_of[e] as usize] = e as i32
            }
        }
        Ok(order)
    }
    pub(super) fn pick(&self) -> Option<Vec<Choice>> {
        let r = match self.last_failed {
            Some(r) if self.sources[r] == OPEN => r,
            _ => (0..self.count)
                .filter(|&r| self.sources[r] == OPEN)
                .min_by_key(|&r| self.place[r])?,
        };
        let want = self.guessed_source[r];
        if want >= 0 && self.can_synchronize(want as usize, r) {
            return Some(vec![
                Choice::Source(r, want as usize),
                Choice::NotSource(r, want as usize),
            ]);
        }
        if want < 0 && self.can_have_none(r) {
            return Some(vec![Choice::NoSource(r), Choice::SomeSource(r)]);
        }
        let mut best: Option<(i64, usize)> = None;
        let mut seen = 0;
        self.each_source(r, &mut |u| {
            let (p, q) = (self.place[u] as i64, self.place[r] as i64);
            let score = if p < q { p } else { -p };
            if best.map_or(true, |b| score > b.0) {
                best = Some((score, u))
            }
            seen += 1;
            seen >= 200
        });
        match best {
            Some((_, u)) => Some(vec![Choice::Source(r, u), Choice::NotSource(r, u)]),
            None => Some(vec![Choice::NoSource(r), Choice::SomeSource(r)]),
        }
    }
    // the alternatives at a node without a failure; Ok if it is a leaf that stands
    pub(super) fn next(&mut self, depth: usize) -> Result<(Vec<Vec<i32>>, Vec<usize>), Vec<Choice>> {
        if let Some(a) = self.pick() {
            return Err(a);
        }
        if self.checked_at.is_none() {
            for r in 0..self.count {
                if self.log.events[r].reads {
                    self.look_again(r)
                }
            }
            if self.propagate().is_err() {
                return Err(vec![]);
            }
            self.checked_at = Some(depth);
        }
        let by = loop {
            match self.writers() {
                Ok(by) => break by,
                Err(bad) => {
                    // what is forced, of all reads at once
                    let mark = self.trail.len();
                    for &(r, _) in &bad {
                        let sw = self.sources[r] >= 0;
                        let m = if sw {
                            self.missing_bytes(self.sources[r] as usize, r)
                        } else {
                            self.all_bytes(r)
                        };
                        if self.force_bytes(r, m, !sw, !sw).is_err() {
                            return Err(vec![]);
                        }
                    }
                    if self.propagate().is_err() {
                        return Err(vec![]);
                    }
                    if self.trail.len() > mark {
                        continue;
                    }
                    let (r, k) = match self.last_failed {
                        Some(x) => bad.iter().copied().find(|b| b.0 == x).unwrap_or(bad[0]),
                        None => bad[0],
                    };
                    let (init, likes) = (self.sources[r] < 0, self.sources[r] < 0);
                    let mut ws = vec![];
                    self.others(r, k as u32, init, &mut |w| {
                        if likes || !self.is_like(w, r) {
                            ws.push(w)
                        }
                        false
                    });
                    let q = self.place[r] as i64;
                    ws.sort_by_key(|&w| {
                        let fit = (0..self.log.events[r].width).filter(|&k| self.fits(w, r, k)).count() as i64;
                        let p = if w < 0 { -1 } else { self.place[w as usize] as i64 };
                        (-fit, if p < q { -p } else { p })
                    });
                    return Err(ws.into_iter().map(|w| Choice::Writer(r, k, w)).collect());
                }
            }
        };
        loop {
            let mark = self.trail.len();
            for i in 0..self.decided_bytes.len() {
                let (r, k) = self.decided_bytes[i];
                if self.order_by_byte(r, k).is_err() {
                    return Err(vec![]);
                }
            }
            if self.is_causal {
                for r in 0..self.count {
                    if self.sources[r] >= 0 && self.rules_of(r).is_err() {
                        return Err(vec![]);
                    }
                }
            }
            if self.propagate().is_err() {
                return Err(vec![]);
            }
            if self.trail.len() == mark {
                break;
            }
        }
        match self.order() {
            Ok(order) => Ok((by, order)),
            Err((w, v, r)) => Err(vec![Choice::Order(r, v), Choice::Order(v, w)]),
        }
    }
}

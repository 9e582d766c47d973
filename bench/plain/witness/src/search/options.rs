//! Which writers a byte of a read can have, and with which writes a read can synchronize.
use super::*;

impl Search<'_> {
    pub(super) fn is_coherent(&self, w: i32, r: usize, k: u32) -> bool {
        if w >= 0 && self.happens_before(r, w as usize) {
            return false;
        }
        let b = self.byte_id(r, k);
        for t in 0..self.threads {
            let v = &self.index.byte_writes[b][t];
            if v.is_empty() {
                continue;
            }
            let p = count_below(v, self.happens[r * self.threads + t]);
            if p > 0 {
                let x = self.id(t, v[p - 1]);
                if x as i32 != w && self.id_happens_before(w, x) {
                    return false;
                }
            }
        }
        true
    }
    // Init may give a byte of the atomic read r only if no atomic write of its range is before r
    pub(super) fn can_be_init(&self, r: usize) -> bool {
        if !self.log.events[r].sc {
            return true;
        }
        let rg = self.index.range_of[r] as usize;
        (0..self.threads).all(|t| {
            let v = &self.index.atomic_writes[rg][t];
            v.is_empty() || v[0] >= self.stands[r * self.threads + t]
        })
    }
    pub(super) fn can_be_from(&self, w: i32, r: usize, k: u32) -> bool {
        self.fits(w, r, k) && self.is_coherent(w, r, k) && (w >= 0 || self.can_be_init(r))
    }
    pub(super) fn free(&self, w: i32, r: usize) -> bool {
        if (0..self.log.events[r].width as usize)
            .any(|k| self.writer_of[self.index.first_byte[r] + k] == w && w != UNSET)
        {
            return true;
        }
        if w >= 0 && !self.happens_before(w as usize, r) {
            return true;
        }
        !self.log.events[r].sc && (w < 0 || !self.log.events[w as usize].sc)
    }
    // the writers that may give byte k of r without synchronizing with it; stops if f says so
    pub(super) fn others(&self, r: usize, k: u32, init: bool, f: &mut dyn FnMut(i32) -> bool) -> bool {
        if init && self.can_be_from(INIT, r, k) && f(INIT) {
            return true;
        }
        let e = &self.log.events[r];
        if (e.sc && self.index.is_atomic[self.index.range_of[r] as usize])
            || (self.is_causal && is_tear_free(e) && self.index.is_whole[self.index.range_of[r] as usize])
        {
            return false;
        }
        let b = self.byte_id(r, k);
        let Some(per) = self.index.byte_writes_of.get(&(b as u32, byte_of(e.rv, k))) else {
            return false;
        };
        for t in 0..self.threads {
            let hr = self.happens[r * self.threads + t];
            let all = &self.index.byte_writes[b][t];
            if all.is_empty() {
                continue;
            }
            let p = count_below(all, hr);
            if p > 0 {
                let x = self.id(t, all[p - 1]);
                if !self.synchronizes(x as i32, r)
                    && self.fits(x as i32, r, k)
                    && self.is_coherent(x as i32, r, k)
                    && f(x as i32)
                {
                    return true;
                }
            }
            if t == e.t {
                continue;
            }
            let v = &per[t];
            for i in count_below(v, hr)..v.len() {
                let x = self.id(t, v[i]);
                if self.happens_before(r, x) {
                    break;
                }
                if self.synchronizes(x as i32, r) {
                    continue;
                }
                if f(x as i32) {
                    return true;
                }
            }
        }
        false
    }
    // An assignment of the bytes in `need` by writers that do not synchronize with r; `likes`: whether one tear-free writer of
    // its range may be among them. Decided bytes stay. With `free`, only writers that demand nothing of the order.
    pub(super) fn writers_for(
        &self,
        r: usize,
        need: u32,
        init: bool,
        likes: bool,
        free: bool,
    ) -> Option<Vec<(u32, i32)>> {
        let e = &self.log.events[r];
        let tear_free = is_tear_free(e);
        let mut out = vec![];
        let mut missing = vec![];
        let mut cap: i32 = UNSET;
        for k in 0..e.width {
            if need >> k & 1 == 0 {
                continue;
            }
            let d = self.writer_of[self.index.first_byte[r] + k as usize];
            if d != UNSET {
                if !self.can_be_from(d, r, k) || (d < 0 && !init) {
                    return None;
                }
                if tear_free && self.is_like(d, r) {
                    if !likes || (cap != UNSET && cap != d) {
                        return None;
                    }
                    cap = d
                }
                out.push((k, d));
            }
        }
        for k in 0..e.width {
            if need >> k & 1 == 0 || self.writer_of[self.index.first_byte[r] + k as usize] != UNSET {
                continue;
            }
            let mut got = UNSET;
            if tear_free && cap != UNSET && self.can_be_from(cap, r, k) && (!free || self.free(cap, r)) {
                got = cap
            }
            if got == UNSET {
                self.others(r, k, init, &mut |w| {
                    if (tear_free && self.is_like(w, r)) || (free && !self.free(w, r)) {
                        false
                    } else {
                        got = w;
                        true
                    }
                });
            }
            if got == UNSET {
                if !tear_free {
                    return None;
                }
                missing.push(k)
            } else {
                out.push((k, got))
            }
        }
        if missing.is_empty() {
            return Some(out);
        }
        if cap != UNSET || !likes {
            return None;
        }
        // one tear-free writer of the range for all missing bytes
        let ok = |p: i32| missing.iter().all(|&k| self.can_be_from(p, r, k)) && (!free || self.free(p, r));
        let mut got = UNSET;
        if let Some(per) = self.index.whole_writes_of.get(&(self.index.range_of[r], e.rv)) {
            // whole value first
            'o: for t in 0..self.threads {
                let hr = self.happens[r * self.threads + t];
                let v = &per[t];
                let p = count_below(v, hr);
                if p > 0 {
                    let x = self.id(t, v[p - 1]) as i32;
                    if !self.synchronizes(x, r) && ok(x) {
                        got = x;
                        break 'o;
                    }
                }
                if t == e.t {
                    continue;
                }
                for i in p..v.len() {
                    let x = self.id(t, v[i]) as i32;
                    if self.happens_before(r, x as usize) {
                        break;
                    }
                    if !self.synchronizes(x, r) && ok(x) {
                        got = x;
                        break 'o;
                    }
                }
            }
        }
        if got == UNSET {
            self.others(r, missing[0], false, &mut |w| {
                if self.is_like(w, r) && ok(w) {
                    got = w;
                    true
                } else {
                    false
                }
            });
        }
        if got == UNSET {
            return None;
        }
        for k in missing {
            out.push((k, got))
        }
        Some(out)
    }
    pub(super) fn all_bytes(&self, r: usize) -> u32 {
        (1 << self.log.events[r].width) - 1
    }
    // the bytes of r that u cannot give
    pub(super) fn missing_bytes(&self, u: usize, r: usize) -> u32 {
        (0..self.log.events[r].width)
            .filter(|&k| !(self.fits(u as i32, r, k) && self.is_coherent(u as i32, r, k)))
            .fold(0, |m, k| m | 1 << k)
    }
    // whether u may synchronize with r, now
    pub(super) fn can_synchronize(&self, u: usize, r: usize) -> bool {
        if u == r || self.stands_before(r, u) || self.excluded[r].contains(&(u as u32)) {
            return false;
        }
        if self.log.events[r].writes && self.updated_by[u] >= 0 && self.updated_by[u] != r as i32 {
            return false;
        }
        if self.are_atomic(u, r) {
            let rg = self.index.range_of[r] as usize;
            for t in 0..self.threads {
                let v = &self.index.atomic_writes[rg][t];
                if v.is_empty() {
                    continue;
                }
                let p = count_below(v, self.stands[r * self.threads + t]);
                if p > 0 {
                    let x = self.id(t, v[p - 1]);
                    if x != u && self.stands_before(u, x) {
                        return false;
                    }
                }
            }
        }
        let m = self.missing_bytes(u, r);
        if m == 0 {
            return true;
        }
        if m == self.all_bytes(r) {
            return false;
        }
        if self.index.is_whole[self.index.range_of[r] as usize] {
            return false;
        }
        self.writers_for(r, m, false, false, false).is_some()
    }
    // the writes that may synchronize with r; stops if f says so
    pub(super) fn each_source(&self, r: usize, f: &mut dyn FnMut(usize) -> bool) -> bool {
        let e = &self.log.events[r];
        let rg = self.index.range_of[r];
        let pure_ = self.index.is_whole[rg as usize];
        let full = if self.is_causal {
            self.index.whole_writes_of.get(&(rg, e.rv))
        } else {
            self.index.atomic_writes_of.get(&(rg, e.rv))
        };
        for t in 0..self.threads {
            let all = if self.is_causal {
                &self.index.whole_writes[rg as usize][t]
            } else {
                &self.index.atomic_writes[rg as usize][t]
            };
            if all.is_empty() {
                continue;
            }
            let gr = if self.is_causal {
                self.happens[r * self.threads + t]
            } else {
                self.stands[r * self.threads + t]
            };
            let p = count_below(all, gr);
            if p > 0 {
                let x = self.id(t, all[p - 1]);
                if self.can_synchronize(x, r) && f(x) {
                    return true;
                }
            }
            if t == e.t {
                continue;
            }
            let v = if pure_ {
                match full {
                    Some(per) => &per[t],
                    None => continue,
                }
            } else {
                all
            };
            for i in count_below(v, gr)..v.len() {
                let x = self.id(t, v[i]);
                if self.stands_before(r, x) {
                    break;
                }
                if self.can_synchronize(x, r) && f(x) {
                    return true;
                }
            }
        }
        false
    }
    pub(super) fn can_have_none(&self, r: usize) -> bool {
        !self.has_source[r] && self.writers_for(r, self.all_bytes(r), true, true, false).is_some()
    }
}

//! The rules of the memory model, V1 to V5, over a log with a witness.
use crate::document::Log;
use crate::index::{byte_left, byte_of, is_tear_free, same, Index};
use crate::search::INIT;

pub fn judge(log: &Log, index: &Index, by: &Vec<Vec<i32>>, order: &Vec<usize>) -> Result<(), String> {
    let n = log.events.len();
    let nt = index.threads;
    let mut place = vec![usize::MAX; n];
    for (p, &e) in order.iter().enumerate() {
        if place[e] != usize::MAX {
            return Err("order".into());
        }
        place[e] = p + 1
    }
    if order.len() != n {
        return Err("order".into());
    }
    let sw = |w: i32, r: usize| {
        w >= 0 && log.events[w as usize].sc && log.events[r].sc && same(&log.events[w as usize], &log.events[r])
    };
    for r in 0..n {
        let e = &log.events[r];
        if by[r].len() != if e.reads { e.width as usize } else { 0 } {
            return Err("count".into());
        }
        for (k, &w) in by[r].iter().enumerate() {
            let a = e.addr + k as u32;
            let v = if w < 0 {
                Some(log.init_at(a))
            } else {
                byte_left(&log.events[w as usize], a)
            };
            if w == r as i32 || v != Some(byte_of(e.rv, k as u32)) {
                return Err(format!("V1 at {r}"));
            }
        }
    }
    let mut h = vec![0u32; n * nt];
    for &e in order {
        let ev = &log.events[e];
        let mut from = vec![];
        if ev.n > 0 {
            from.push(e - 1)
        }
        for &w in &by[e] {
            if sw(w, e) {
                from.push(w as usize)
            }
        }
        for a in from {
            if place[a] >= place[e] {
                return Err(format!("V2 at {e}"));
            }
            let ea = &log.events[a];
            for t in 0..nt {
                let x = h[a * nt + t];
                if x > h[e * nt + t] {
                    h[e * nt + t] = x
                }
            }
            if h[e * nt + ea.t] < ea.n + 1 {
                h[e * nt + ea.t] = ea.n + 1
            }
        }
    }
    let happens_before = |a: i32, b: usize| a < 0 || h[b * nt + log.events[a as usize].t] > log.events[a as usize].n;
    let pl = |w: i32| if w < 0 { 0 } else { place[w as usize] };
    let mut bypl: Vec<Vec<usize>> = vec![vec![]; index.atomic_writes.len()];
    for &e in order {
        if log.events[e].sc && log.events[e].writes {
            bypl[index.range_of[e] as usize].push(place[e])
        }
    }
    for r in 0..n {
        let e = &log.events[r];
        let mut like = INIT;
        for (k, &w) in by[r].iter().enumerate() {
            if w >= 0 && h[w as usize * nt + e.t] > e.n {
                return Err(format!("V3 case 1 at {r}"));
            }
            let b = index.byte[&(e.addr + k as u32)] as usize;
            for t in 0..nt {
                let v = &index.byte_writes[b][t];
                let p = v.partition_point(|&x| x < h[r * nt + t]);
                if p > 0 {
                    let x = log.base[t] + v[p - 1] as usize;
                    if x as i32 != w && happens_before(w, x) {
                        return Err(format!("V3 case 2 at {r}"));
                    }
                }
            }
            if w >= 0 && is_tear_free(e) && is_tear_free(&log.events[w as usize]) && same(&log.events[w as usize], e) {
                if like >= 0 && like != w {
                    return Err(format!("V4 at {r}"));
                }
                like = w
            }
            if sw(w, r) {
                let v = &bypl[index.range_of[r] as usize];
                let p = v.partition_point(|&x| x <= pl(w));
                if p < v.len() && v[p] < place[r] {
                    return Err(format!("V5 case 1 at {r}"));
                }
            }
            if happens_before(w, r) && w >= 0 && log.events[w as usize].sc {
                for t in 0..nt {
                    let v = &index.atomic_writes[index.range_of[w as usize] as usize][t];
                    let p = v.partition_point(|&x| x < h[r * nt + t]);
                    if p > 0 {
                        let x = log.base[t] + v[p - 1] as usize;
                        if place[x] > pl(w) {
                            return Err(format!("V5 case 2 at {r}"));
                        }
                    }
                }
            }
            if happens_before(w, r) && e.sc {
                for t in 0..nt {
                    let v = &index.atomic_writes[index.range_of[r] as usize][t];
                    for &x in v {
                        let x = log.base[t] + x as usize;
                        if happens_before(w, x) {
                            if place[x] < place[r] {
                                return Err(format!("V5 case 3 at {r}"));
                            }
                            break;
                        }
                    }
                }
            }
        }
    }
    Ok(())
}

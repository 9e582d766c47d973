//! What is known before anything is assumed.
use super::*;

impl Search<'_> {
    pub(super) fn root(&mut self) -> Kept {
        for round in 0.. {
            self.bulk = true;
            self.rebuild()?;
            self.bulk = false;
            self.trail.clear();
            if round >= ROUNDS {
                break;
            }
            self.bulk = true;
            let before = self.edges;
            let mut decided = 0;
            for e in 0..self.count {
                self.order_beside(e)?
            }
            for e in 0..self.count {
                if self.sources[e] >= 0 {
                    self.order_after(self.sources[e] as usize, e)?
                }
            }
            for e in 0..self.count {
                if self.log.events[e].reads {
                    let o = self.sources[e];
                    self.check(e)?;
                    if self.sources[e] != o {
                        decided += 1
                    }
                }
            }
            for i in 0..self.decided_bytes.len() {
                let (r, k) = self.decided_bytes[i];
                self.order_by_byte(r, k)?
            }
            self.clear();
            if self.edges == before && decided == 0 {
                break;
            }
        }
        self.bulk = false;
        self.trail.clear();
        for e in 0..self.count {
            self.note_moved(e);
            if self.sources[e] >= 0 {
                self.order_after(self.sources[e] as usize, e)?
            }
            if self.log.events[e].reads {
                self.look_again(e)
            }
        }
        self.propagate()?;
        self.trail.clear();
        Ok(())
    }
}

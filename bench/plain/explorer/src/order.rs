//! What is known of the order of a graph's events, and whether there is one.

/// The numbers in a set.
pub fn members(mut set: u128) -> impl Iterator<Item = usize> {
    std::iter::from_fn(move || {
        let member = set.trailing_zeros() as usize;
        set &= set.wrapping_sub(1);
        (member < 128).then_some(member)
    })
}

/// An atomic write that may not come between a write and a read that takes from it.
#[derive(Clone, Copy)]
pub struct Between {
    pub writer: usize,
    pub other: usize,
    pub read: usize,
}

#[derive(Clone, Default)]
pub struct Order {
    before: Vec<u128>,
    after: Vec<u128>,
    /// Of these it isn't known on which side the other write comes.
    open: Vec<Between>,
}

impl Order {
    fn is_before(&self, first: usize, second: usize) -> bool {
        self.before[second] >> first & 1 == 1
    }

    /// Adds an event that comes after some others.
    pub fn add(&mut self, others: u128) {
        let event = self.before.len();
        let all = members(others).fold(others, |all, other| all | self.before[other]);
        for other in members(all) {
            self.after[other] |= 1 << event;
        }
        self.before.push(all);
        self.after.push(0);
    }

    /// Puts an event before another; false if it comes after it.
    pub fn put(&mut self, first: usize, second: usize) -> bool {
        if first == second || self.is_before(second, first) {
            return false;
        }
        if !self.is_before(first, second) {
            let (early, late) = (
                self.before[first] | 1 << first,
                self.after[second] | 1 << second,
            );
            members(late).for_each(|event| self.before[event] |= early);
            members(early).for_each(|event| self.after[event] |= late);
        }
        true
    }

    pub fn keep_out(&mut self, between: Between) {
        self.open.push(between);
    }

    /// Draws one conclusion of what is open: Some(false) if there is no order, None if it stays open.
    fn conclude(&mut self, between: Between) -> Option<bool> {
        let Between {
            writer,
            other,
            read,
        } = between;
        if self.is_before(other, writer) || self.is_before(read, other) {
            Some(true)
        } else if self.is_before(writer, other) {
            Some(self.put(read, other))
        } else if self.is_before(other, read) {
            Some(self.put(other, writer))
        } else {
            None
        }
    }

    /// Draws all conclusions; false if there is no order.
    pub fn settle(&mut self) -> bool {
        loop {
            let open = std::mem::take(&mut self.open);
            let count = open.len();
            for between in open {
                match self.conclude(between) {
                    Some(true) => (),
                    Some(false) => return false,
                    None => self.open.push(between),
                }
            }
            if self.open.len() == count {
                return true;
            }
        }
    }

    /// Whether there is an order, after all conclusions.
    pub fn exists(&self) -> bool {
        let Some(&Between {
            writer,
            other,
            read,
        }) = self.open.first()
        else {
            return true;
        };
        [(read, other), (other, writer)]
            .into_iter()
            .any(|(first, second)| {
                let mut guess = self.clone();
                guess.put(first, second) && guess.settle() && guess.exists()
            })
    }
}

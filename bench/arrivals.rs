//! Arrivals of several kinds of link, as endless lists of wire number and mark.
#![allow(dead_code)] // The programs are timed on the first three only.
use crate::random::Random;

#[derive(Clone, Copy)]
pub enum Link {
    InOrder,
    Lossy,
    Reordered,
    Near,
    Far,
    Jumps,
    Restarts,
}

/// What links do.
pub const LINKS: [(Link, &str); 3] =
    [(Link::InOrder, "in order"), (Link::Lossy, "lossy, CE marks"), (Link::Reordered, "reordered, duplicates")];

/// What they do at worst.
pub const WORST: [(Link, &str); 4] = [
    (Link::Near, "at random, at most 20 below"),
    (Link::Far, "at random, at most 99 below"),
    (Link::Jumps, "95 % jumps"),
    (Link::Restarts, "a restart each 40"),
];

pub struct Arrivals {
    link: Link,
    random: Random,
    next: u16,
    waiting: Vec<u16>,
}

const ECT0: u8 = 2;
const CE: u8 = 3;

impl Arrivals {
    pub fn new(link: Link, seed: u64) -> Arrivals {
        Arrivals { link, random: Random(seed), next: 65_000, waiting: Vec::new() }
    }

    fn advanced(&mut self, by: u16) -> u16 {
        self.next = self.next.wrapping_add(by);
        self.next
    }

    /// 1 number in 50 is lost, 1 in 2,000 begins a gap of up to 200; 1 arrival in 5,000 is a stray far away.
    fn lossy_number(&mut self) -> u16 {
        if self.random.once_in(5_000) {
            return self.next.wrapping_add(20_000);
        }
        if self.random.once_in(2_000) {
            let gap = 1 + self.random.below(200) as u16;
            return self.advanced(gap);
        }
        let by = if self.random.once_in(50) { 2 } else { 1 };
        self.advanced(by)
    }

    /// 16 numbers, one of them twice, four pairs swapped.
    fn refill(&mut self) {
        for _ in 0..16 {
            let number = self.advanced(1);
            self.waiting.push(number);
        }
        let twice = self.waiting[self.random.below(16) as usize];
        self.waiting.push(twice);
        for _ in 0..4 {
            let (a, b) = (self.random.below(17) as usize, self.random.below(17) as usize);
            self.waiting.swap(a, b);
        }
        self.waiting.reverse();
    }

    /// The next number, or as often one of the last so many.
    fn among_last(&mut self, last: u64) -> u16 {
        if self.random.once_in(2) { self.advanced(1) } else { self.next.wrapping_sub(self.random.below(last) as u16) }
    }

    /// 19 arrivals in 20 are strays, no two of which follow each other.
    fn jumping(&mut self) -> u16 {
        if self.random.once_in(20) { self.advanced(1) } else { self.next.wrapping_add(10_000 + 2 * self.random.below(20_000) as u16) }
    }

    /// In order, but every 40 or so it goes on far away.
    fn restarting(&mut self) -> u16 {
        if self.random.once_in(40) { self.advanced(20_000) } else { self.advanced(1) }
    }
}

impl Iterator for Arrivals {
    type Item = (u16, u8);

    fn next(&mut self) -> Option<(u16, u8)> {
        match self.link {
            Link::InOrder => Some((self.advanced(1), ECT0)),
            Link::Lossy => {
                let number = self.lossy_number();
                let mark = if self.random.once_in(10) { CE } else { ECT0 };
                Some((number, mark))
            }
            Link::Reordered => {
                if self.waiting.is_empty() {
                    self.refill();
                }
                let number = self.waiting.pop()?;
                Some((number, self.random.below(4) as u8))
            }
            Link::Near => Some((self.among_last(21), self.random.below(4) as u8)),
            Link::Far => Some((self.among_last(100), self.random.below(4) as u8)),
            Link::Jumps => Some((self.jumping(), ECT0)),
            Link::Restarts => Some((self.restarting(), ECT0)),
        }
    }
}

//! Arrivals counted in plain Rust, over two rings of flags. No check of the record: nobody else can write it.

pub trait Ring: Default {
    /// Moves on by so many numbers, none of which has arrived, and marks the newest.
    fn move_on(&mut self, by: usize);
    /// Marks the number so far below the newest, and says whether it was marked.
    fn mark(&mut self, below: usize) -> bool;
    /// Whether the number so far below the newest is marked.
    fn is_marked(&self, below: usize) -> bool;
}

/// 100 flags; the index wraps by a comparison.
pub struct Hundred {
    arrived: [bool; 100],
    newest: usize,
}

impl Default for Hundred {
    fn default() -> Hundred {
        Hundred { arrived: [false; 100], newest: 0 }
    }
}

impl Ring for Hundred {
    #[inline(always)]
    fn move_on(&mut self, by: usize) {
        if by >= 100 {
            self.arrived = [false; 100];
        } else {
            for _ in 0..by {
                self.newest = if self.newest == 99 { 0 } else { self.newest + 1 };
                self.arrived[self.newest] = false;
            }
        }
        self.arrived[self.newest] = true;
    }

    #[inline(always)]
    fn mark(&mut self, below: usize) -> bool {
        let wrap = if below <= self.newest { 0 } else { 100 };
        std::mem::replace(&mut self.arrived[self.newest + wrap - below], true)
    }

    fn is_marked(&self, below: usize) -> bool {
        self.arrived[(self.newest + 100 - below) % 100]
    }
}

/// 128 flags; the index wraps by a mask.
pub struct PowerOfTwo {
    arrived: [bool; 128],
    newest: usize,
}

impl Default for PowerOfTwo {
    fn default() -> PowerOfTwo {
        PowerOfTwo { arrived: [false; 128], newest: 0 }
    }
}

impl Ring for PowerOfTwo {
    #[inline(always)]
    fn move_on(&mut self, by: usize) {
        if by >= 128 {
            self.arrived = [false; 128];
        } else {
            for i in 1..by {
                self.arrived[(self.newest + i) & 127] = false;
            }
        }
        self.newest = (self.newest + by) & 127;
        self.arrived[self.newest] = true;
    }

    #[inline(always)]
    fn mark(&mut self, below: usize) -> bool {
        std::mem::replace(&mut self.arrived[self.newest.wrapping_sub(below) & 127], true)
    }

    fn is_marked(&self, below: usize) -> bool {
        self.arrived[self.newest.wrapping_sub(below) & 127]
    }
}

const MOST: u64 = 1 << 48;

/// The answer to an arrival that begins the record again.
pub const RESTARTED: u8 = 128;

#[derive(Default)]
pub struct Counter<R> {
    ring: R,
    base: i64,
    highest: i64,
    marks: [u64; 4],
    arrivals: u64,
    duplicates: u64,
    /// The number that would follow the last jump.
    remembered: Option<u16>,
}

impl<R: Ring> Counter<R> {
    /// 0, RESTARTED, or refusal 10, 8 or 7.
    #[inline(always)]
    pub fn arrive(&mut self, wire: u16, mark: u8) -> u8 {
        if mark > 3 {
            return 10;
        }
        if self.arrivals == MOST {
            return 8;
        }
        if self.arrivals == 0 {
            self.begin(wire);
        } else {
            let d = wire.wrapping_sub(self.highest as u16);
            match d {
                1..=2_999 => {
                    self.ring.move_on(usize::from(d));
                    self.highest += i64::from(d);
                }
                0 | 65_437..=65_535 => self.duplicates += u64::from(self.ring.mark(usize::from(d.wrapping_neg()))),
                _ => return self.jumped(wire, mark),
            }
        }
        self.accept(mark)
    }

    fn begin(&mut self, wire: u16) {
        self.base = i64::from(wire);
        self.highest = self.base;
        self.ring.mark(0);
    }

    #[inline(always)]
    fn accept(&mut self, mark: u8) -> u8 {
        self.arrivals += 1;
        self.marks[usize::from(mark)] += 1;
        self.remembered = None;
        0
    }

    /// A jump with the remembered number begins again; any other is remembered by the number that would follow it.
    #[inline(always)]
    fn jumped(&mut self, wire: u16, mark: u8) -> u8 {
        if self.remembered != Some(wire) {
            self.remembered = Some(wire.wrapping_add(1));
            return 7;
        }
        *self = Self::default();
        self.begin(wire);
        self.accept(mark);
        RESTARTED
    }

    /// Counts a block's records and gives 256 times the restarts plus the jumps, or minus 10.
    #[inline(always)]
    pub fn count_block(&mut self, records: &[u8]) -> i64 {
        let n = records.len() / 8;
        if records.len() % 8 != 0 || !(1..=62).contains(&n) || records.chunks_exact(8).any(|record| record[6] > 3) {
            return -10;
        }
        let (mut jumps, mut restarts) = (0, 0);
        for record in records.chunks_exact(8) {
            let answer = self.arrive(u16::from_be_bytes([record[4], record[5]]), record[6]);
            jumps += i64::from(answer == 7);
            restarts += i64::from(answer == RESTARTED);
        }
        256 * restarts + jumps
    }

    /// Base, highest, the four marks, the duplicates, the history (places 0 to 63 and 64 to 99), and the remembered number plus 1, or 0.
    pub fn words(&self) -> [u64; 10] {
        let [notect, ect1, ect0, ce] = self.marks;
        let (mut recent, mut older) = (0, 0);
        for place in 0..100 {
            let bit = u64::from(self.arrivals > 0 && self.ring.is_marked(place));
            if place < 64 { recent |= bit << place } else { older |= bit << (place - 64) }
        }
        let remembered = self.remembered.map_or(0, |wire| u64::from(wire) + 1);
        [self.base as u64, self.highest as u64, notect, ect1, ect0, ce, self.duplicates, recent, older, remembered]
    }
}

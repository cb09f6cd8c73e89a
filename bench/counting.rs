//! A source counted in straightforward Rust, over a ring of flags, and its row, for the other programs.
use crate::trace;
use std::io::{self, Write};

const MOST: u64 = 1 << 48;

#[derive(Default)]
pub struct Source {
    base: i64,
    highest: i64,
    marks: [u64; 4],
    arrivals: u64,
    duplicates: u64,
    /// The wire number that would follow the last jump.
    remembered: Option<u16>,
    jumped: u64,
    restarts: u64,
}

/// Which of the last 100 numbers have arrived: number n at n modulo 100.
pub struct Ring([bool; 100]);

impl Ring {
    pub fn new() -> Ring {
        Ring([false; 100])
    }
}

impl Ring {
    fn place(&mut self, number: i64) -> &mut bool {
        &mut self.0[number.rem_euclid(100) as usize]
    }

    fn move_on(&mut self, highest: i64, by: i64) {
        for i in 1..=by.min(100) {
            *self.place(highest + i) = false;
        }
        *self.place(highest + by) = true;
    }
}

impl Source {
    /// A jump: two in a row to the same place begin again with the second.
    fn jump(&mut self, ring: &mut Ring, wire: u16, mark: u8) {
        if self.remembered != Some(wire) {
            self.remembered = Some(wire.wrapping_add(1));
            self.jumped = (self.jumped + 1).min(MOST);
            return;
        }
        *ring = Ring([false; 100]);
        *self = Source { jumped: self.jumped, restarts: (self.restarts + 1).min(MOST), ..Source::default() };
        self.arrive(ring, wire, mark);
    }

    fn arrive(&mut self, ring: &mut Ring, wire: u16, mark: u8) {
        if self.arrivals == MOST {
            return;
        }
        if self.arrivals == 0 {
            self.base = i64::from(wire);
            self.highest = self.base;
            *ring.place(self.base) = true;
        } else {
            match wire.wrapping_sub(self.highest as u16) {
                d @ 1..=2_999 => {
                    ring.move_on(self.highest, i64::from(d));
                    self.highest += i64::from(d);
                }
                d @ (0 | 65_437..=65_535) => {
                    let place = ring.place(self.highest - i64::from(d.wrapping_neg()));
                    self.duplicates += u64::from(*place);
                    *place = true;
                }
                _ => return self.jump(ring, wire, mark),
            }
        }
        self.remembered = None;
        self.arrivals += 1;
        self.marks[usize::from(mark)] += 1;
    }

    fn lost(&self) -> i64 {
        if self.arrivals == 0 { 0 } else { self.highest - self.base + 1 - (self.arrivals - self.duplicates) as i64 }
    }
}

pub fn quoted(label: &[u8]) -> String {
    let text = String::from_utf8_lossy(label);
    if text.contains(['"', ',', '\r', '\n']) { format!("\"{}\"", text.replace('"', "\"\"")) } else { text.into_owned() }
}

pub fn write_row(out: &mut impl Write, label: &str, ssrc: u32, s: &Source) -> io::Result<()> {
    let [notect, ect1, ect0, ce] = s.marks;
    let (highest, lost) = (s.highest, s.lost());
    write!(out, "{label},{ssrc},{highest},{ect0},{ect1},{ce},{notect},{lost},{},{},{}\r\n", s.duplicates, s.jumped, s.restarts)
}

/// Takes a block's records, of WIDTH bytes each.
pub fn arrive_all<const WIDTH: usize>(source: &mut Source, ring: &mut Ring, records: &[u8]) {
    for record in records.chunks_exact(WIDTH) {
        source.arrive(ring, trace::short(record, WIDTH - 4), record[WIDTH - 2]);
    }
}

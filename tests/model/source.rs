//! Document 01, "Counting arrivals", and document 02, L5: the record of one RTP source, judged and stepped. The history is a set of numbers.
use crate::refusal::*;
use std::collections::BTreeSet;

pub const WORDS: usize = 10;
pub const MOST_ARRIVALS: u64 = 1 << 48;
/// RFC 3550, appendix A.1: MAX_DROPOUT less one, and MAX_MISORDER.
pub const MOST_AHEAD: i64 = 2_999;
pub const PLACES: i64 = 100;

/// Marks by RFC 3168; also their places in `marks`.
pub const NOT_ECT: usize = 0;
pub const ECT1: usize = 1;
pub const ECT0: usize = 2;
pub const CE: usize = 3;

#[derive(Clone, Debug, Default, PartialEq)]
pub struct Source {
    pub base: i64,
    pub highest: i64,
    pub marks: [u64; 4],
    pub duplicates: u64,
    /// Those of the numbers from highest - 99 to highest that have arrived.
    pub history: BTreeSet<i64>,
    /// The wire number that is expected behind the last jump.
    pub remembered: Option<u16>,
}

/// What an arrival does that is not refused.
#[derive(Clone, Copy, Debug, PartialEq)]
pub enum Counted {
    Accepted,
    Restarted,
}

impl Source {
    pub fn from_words(words: &[u64]) -> Result<Source, Refusal> {
        let words: &[u64; WORDS] = words.try_into().map_err(|_| MALFORMED)?;
        if *words == [0; WORDS] {
            return Ok(Source::default());
        }
        require(sound(words), MALFORMED)?;
        let highest = words[1] as i64;
        Ok(Source {
            base: words[0] as i64,
            highest,
            marks: [words[2], words[3], words[4], words[5]],
            duplicates: words[6],
            history: (0..PLACES).filter(|&place| marked(words, place)).map(|place| highest - place).collect(),
            remembered: words[9].checked_sub(1).map(|number| number as u16),
        })
    }

    pub fn to_words(&self) -> [u64; WORDS] {
        let [not_ect, ect1, ect0, ce] = self.marks;
        let remembered = self.remembered.map_or(0, |number| u64::from(number) + 1);
        let mut words = [self.base as u64, self.highest as u64, not_ect, ect1, ect0, ce, self.duplicates, 0, 0, remembered];
        for number in &self.history {
            let place = self.highest - number;
            words[7 + place as usize / 64] |= 1 << (place % 64);
        }
        words
    }

    pub fn arrivals(&self) -> u64 {
        self.marks.iter().sum()
    }

    pub fn lost(&self) -> i64 {
        if self.arrivals() == 0 {
            return 0;
        }
        self.highest - self.base + 1 - (self.arrivals() - self.duplicates) as i64
    }

    /// The record is sound: `from_words` gave it. What is left of the order 9, 10, 8, 7; of the refusals 7 alone changes the record.
    pub fn arrive(&mut self, wire: u16, mark: u8) -> Result<Counted, Refusal> {
        require(mark <= 3, LIMITS)?;
        require(self.arrivals() < MOST_ARRIVALS, FULL)?;
        let Some(number) = self.extended(wire) else {
            return self.jump(wire, mark);
        };
        self.remembered = None;
        if self.arrivals() == 0 {
            self.base = number;
            self.highest = number;
        }
        self.highest = self.highest.max(number);
        if !self.history.insert(number) {
            self.duplicates += 1;
        }
        let oldest = self.highest - (PLACES - 1);
        self.history.retain(|&arrived| arrived >= oldest);
        self.marks[usize::from(mark)] += 1;
        Ok(Counted::Accepted)
    }

    /// RFC 3550, appendix A.1: two packets in a row that jump to the same place begin again, the second as a first arrival.
    fn jump(&mut self, wire: u16, mark: u8) -> Result<Counted, Refusal> {
        if self.remembered == Some(wire) {
            *self = Source::default();
            self.arrive(wire, mark)?;
            return Ok(Counted::Restarted);
        }
        self.remembered = Some(((u32::from(wire) + 1) % 65_536) as u16);
        Err(JUMP)
    }

    /// The only number within the limits that has this wire number, if there is one.
    fn extended(&self, wire: u16) -> Option<i64> {
        if self.arrivals() == 0 {
            return Some(i64::from(wire));
        }
        let ahead = (i64::from(wire) - self.highest).rem_euclid(65_536);
        match ahead {
            1..=MOST_AHEAD => Some(self.highest + ahead),
            0 => Some(self.highest),
            _ if 65_536 - ahead < PLACES => Some(self.highest - (65_536 - ahead)),
            _ => None,
        }
    }
}

fn marked(words: &[u64; WORDS], place: i64) -> bool {
    words[7 + place as usize / 64] >> (place % 64) & 1 == 1
}

fn sound(words: &[u64; WORDS]) -> bool {
    let base = i128::from(words[0] as i64);
    let highest = i128::from(words[1] as i64);
    let arrivals: i128 = words[2..6].iter().map(|&count| i128::from(count)).sum();
    let duplicates = i128::from(words[6]);
    let distinct = arrivals - duplicates;
    let places = (0..PLACES).filter(|&place| marked(words, place)).count() as i128;
    (0..=65_535).contains(&base)
        && highest >= base
        && (1..=i128::from(MOST_ARRIVALS)).contains(&arrivals)
        && duplicates < arrivals
        && marked(words, 0)
        && words[8] < 1 << 36
        && places <= distinct
        && highest - base <= i128::from(MOST_AHEAD) * (distinct - 1)
        && words[9] <= 65_536
}

/// The records of one arrivals block counted in order; gives the numbers of jumps and restarts. The wire number and the mark are in the last
/// four bytes of each record.
pub fn count_block(words: &[u64], records: &[u8], width: usize) -> Result<(Source, u64, u64), Refusal> {
    let mut source = Source::from_words(words)?;
    require(width >= 4 && records.len() % width == 0 && (1..=62).contains(&(records.len() / width)), LIMITS)?;
    let arrivals: Vec<(u16, u8)> =
        records.chunks(width).map(|record| &record[width - 4..]).map(|last| (u16::from_be_bytes([last[0], last[1]]), last[2])).collect();
    require(arrivals.iter().all(|&(_, mark)| mark <= 3), LIMITS)?;
    let answers: Vec<_> = arrivals.iter().map(|&(wire, mark)| source.arrive(wire, mark)).collect();
    let count = |wanted| answers.iter().filter(|&&answer| answer == wanted).count() as u64;
    Ok((source, count(Err(JUMP)), count(Ok(Counted::Restarted))))
}

//! Document 01, "The breaker", with document 02, L2, L4 and L9: the record, judged and stepped.
use crate::refusal::*;

pub const WORDS: usize = 77;
pub const MOST_INTERVALS: u64 = 32;
pub const MOST_TIMEOUT: u64 = 600_000;
pub const TIMES: u64 = 1 << 48;
pub const MOST_FRACTION: u64 = 255;
pub const MOST_PACKETS: u64 = 1 << 31;
pub const MOST_RTT: u64 = 60_000;
pub const MOST_SIZE: u64 = 65_535;
pub const MOST_RATE: u64 = 125_000_000;
pub const MOST_LENGTH: u64 = 10_000_000;

#[derive(Clone, Copy, Debug, PartialEq)]
pub enum Answer {
    Go,
    Reduce,
    Stop(u64),
}

pub const TIMEOUT: u64 = 1;
pub const MEDIA: u64 = 2;
pub const CONGESTION: u64 = 3;

#[derive(Clone, Debug, PartialEq)]
pub struct Breaker {
    pub k: u64,
    pub m: u64,
    pub timeout: u64,
    pub reduce: bool,
    /// The full throughput equation in place of the simplified one.
    pub full: bool,
    /// 0 while running, else the reason of the stop.
    pub stopped: u64,
    /// Of the last report or the start.
    pub time: u64,
    /// The time from which the timeout is measured.
    pub heard: u64,
    /// The highest number of the last report, if there was one.
    pub number: Option<u64>,
    pub run: u64,
    pub trial: bool,
    /// Length and fraction lost, newest first.
    pub window: Vec<(u64, u64)>,
}

/// The fraction lost, or the packets lost, marked and expected.
#[derive(Clone, Copy, Debug)]
pub enum Loss {
    Fraction(u64),
    Counts { lost: i64, marked: u64, expected: u64 },
}

impl Loss {
    fn within_limits(self) -> bool {
        match self {
            Loss::Fraction(fraction) => fraction <= MOST_FRACTION,
            Loss::Counts { lost, marked, expected } => {
                (-(1 << 31)..=1 << 31).contains(&lost) && marked <= MOST_PACKETS && expected <= MOST_PACKETS
            }
        }
    }

    /// 256 min(L + C, E) / E rounded down, at most 255; a negative L is 0, and E = 0 gives 0.
    pub fn fraction(self) -> u64 {
        match self {
            Loss::Fraction(fraction) => fraction,
            Loss::Counts { expected: 0, .. } => 0,
            Loss::Counts { lost, marked, expected } => {
                let gone = (lost.max(0) as u64 + marked).min(expected);
                (256 * gone / expected).min(255)
            }
        }
    }
}

#[derive(Clone, Copy, Debug)]
pub struct Report {
    pub time: u64,
    pub number: u32,
    pub loss: Loss,
    pub rtt: u64,
    pub size: u64,
    pub rate: u64,
}

impl Report {
    fn within_limits(&self) -> bool {
        self.time < TIMES
            && self.loss.within_limits()
            && self.rtt <= MOST_RTT
            && (1..=MOST_SIZE).contains(&self.size)
            && self.rate <= MOST_RATE
    }
}

/// W, the sum of the lengths, and P, the sum of fraction times length.
pub fn sums(window: &[(u64, u64)]) -> (u128, u128) {
    let w = window.iter().map(|&(length, _)| u128::from(length)).sum();
    let p = window.iter().map(|&(length, fraction)| u128::from(fraction) * u128::from(length)).sum();
    (w, p)
}

/// Whether the rate is above ten times the throughput equation over the intervals of the window, the full one or the simplified one. The
/// largest values fit 128 bits, as an item below computes.
pub fn congested(full: bool, window: &[(u64, u64)], rtt: u64, size: u64, rate: u64) -> bool {
    let [rtt, size, rate] = [rtt, size, rate].map(u128::from);
    let (w, p) = sums(window);
    if full {
        rate * rtt * denominator(4 * p / w) > 10_000 * size << 50
    } else {
        rate * rate * rtt * rtt * p > 38_400_000_000 * size * size * w
    }
}

/// A 2^30 + 12 B n (2^20 + 32 n^2), with A the root of 2n/3072 and B that of 3n/8192, both times 2^20 and rounded down. For n = 0 it is 0.
const fn denominator(n: u128) -> u128 {
    let (a, b) = (scaled_root(2 * n, 3_072), scaled_root(3 * n, 8_192));
    (a << 30) + 12 * b * n * ((1 << 20) + 32 * n * n)
}

/// By halving: the greatest number whose square is at most 2^40 top / bottom.
const fn scaled_root(top: u128, bottom: u128) -> u128 {
    let (mut root, mut above) = (0, 1 << 21);
    while above - root > 1 {
        let middle = (root + above) / 2;
        if middle * middle * bottom <= top << 40 {
            root = middle
        } else {
            above = middle
        }
    }
    root
}

/// Does not compile if a product passes 128 bits.
pub const LARGEST_PRODUCTS: [u128; 4] = {
    let w = 32 * MOST_LENGTH as u128;
    let (rate, rtt, size) = (MOST_RATE as u128, MOST_RTT as u128, MOST_SIZE as u128);
    let simplified = [rate * rate * rtt * rtt * (255 * w), 38_400_000_000 * size * size * w];
    [simplified[0], simplified[1], rate * rtt * denominator(1_020), 10_000 * size * (1 << 50)]
};

impl Breaker {
    pub fn start(k: u64, m: u64, timeout: u64, reduce: u8, full: u8, time: u64) -> Result<Breaker, Refusal> {
        require(settings_within_limits(k, m, timeout) && reduce <= 1 && full <= 1 && time < TIMES, LIMITS)?;
        let (reduce, full, heard) = (reduce == 1, full == 1, time);
        Ok(Breaker { k, m, timeout, reduce, full, stopped: 0, time, heard, number: None, run: 0, trial: false, window: Vec::new() })
    }

    /// The record is sound. Stopped, 10, 11, then the rules in order.
    pub fn report(&mut self, report: &Report) -> Result<Answer, Refusal> {
        if self.stopped != 0 {
            return Ok(Answer::Stop(self.stopped));
        }
        require(report.within_limits(), LIMITS)?;
        require(report.time > self.time && report.time >= self.heard, TIME)?;
        let next = if report.rate == 0 { Ok((self.idle(), Answer::Go)) } else { self.judged(report) };
        Ok(match next {
            Err(reason) => self.stop(reason),
            Ok((next, answer)) => {
                *self = Breaker { time: report.time, heard: report.time, number: Some(u64::from(report.number)), ..next };
                answer
            }
        })
    }

    pub fn tick(&mut self, time: u64) -> Result<Answer, Refusal> {
        self.timed(time, self.heard)
    }

    /// A packet that is no report: the timeout is measured from it.
    pub fn heard(&mut self, time: u64) -> Result<Answer, Refusal> {
        self.timed(time, time)
    }

    fn timed(&mut self, time: u64, held: u64) -> Result<Answer, Refusal> {
        if self.stopped != 0 {
            return Ok(Answer::Stop(self.stopped));
        }
        require(time < TIMES, LIMITS)?;
        require(time >= self.time && time >= self.heard, TIME)?;
        if self.late(time) {
            return Ok(self.stop(TIMEOUT));
        }
        self.heard = held;
        Ok(Answer::Go)
    }

    fn late(&self, time: u64) -> bool {
        time - self.heard >= self.timeout
    }

    fn stop(&mut self, reason: u64) -> Answer {
        self.stopped = reason;
        Answer::Stop(reason)
    }

    /// After a report with rate 0: the window is empty and the media run 0; it is not tested.
    fn idle(&self) -> Breaker {
        Breaker { window: Vec::new(), run: 0, ..self.clone() }
    }

    /// Timeout, media, congestion: the next record and the answer, or the reason of a stop.
    fn judged(&self, report: &Report) -> Result<(Breaker, Answer), u64> {
        if self.late(report.time) {
            return Err(TIMEOUT);
        }
        let mut next = self.clone();
        next.run = if self.behind(report.number) { self.run + 1 } else { 0 };
        if next.run == self.m {
            return Err(MEDIA);
        }
        if self.number.is_none() {
            // The first report closes no interval, so nothing is tested, even on a record that comes with a full window.
            return Ok((next, Answer::Go));
        }
        next.window.insert(0, ((report.time - self.time).min(MOST_LENGTH), report.loss.fraction()));
        next.window.truncate(self.k as usize);
        if next.window.len() as u64 != self.k {
            return Ok((next, Answer::Go));
        }
        if !congested(self.full, &next.window, report.rtt, report.size, report.rate) {
            return Ok((Breaker { trial: false, ..next }, Answer::Go));
        }
        if self.reduce && !self.trial {
            return Ok((Breaker { window: Vec::new(), trial: true, ..next }, Answer::Reduce));
        }
        Err(CONGESTION)
    }

    /// The number is not ahead of the last one modulo 2^32.
    fn behind(&self, number: u32) -> bool {
        self.number.is_some_and(|last| {
            let ahead = (u64::from(number) + (1 << 32) - last) % (1 << 32);
            ahead == 0 || ahead >= 1 << 31
        })
    }

    pub fn from_words(words: &[u64]) -> Result<Breaker, Refusal> {
        require(words.len() == WORDS && sound(words), MALFORMED)?;
        Ok(Breaker {
            k: words[0],
            m: words[1],
            timeout: words[2],
            reduce: words[3] == 1,
            full: words[4] == 1,
            stopped: words[5],
            time: words[6],
            heard: words[7],
            number: (words[8] == 1).then_some(words[9]),
            run: words[10],
            trial: words[11] == 1,
            window: words[13..].chunks(2).take(words[12] as usize).map(|interval| (interval[0], interval[1])).collect(),
        })
    }

    pub fn to_words(&self) -> [u64; WORDS] {
        let mut words = [0; WORDS];
        words[..6].copy_from_slice(&[self.k, self.m, self.timeout, u64::from(self.reduce), u64::from(self.full), self.stopped]);
        words[6..10].copy_from_slice(&[self.time, self.heard, u64::from(self.number.is_some()), self.number.unwrap_or(0)]);
        words[10..13].copy_from_slice(&[self.run, u64::from(self.trial), self.window.len() as u64]);
        for (place, &(length, fraction)) in self.window.iter().enumerate() {
            words[13 + 2 * place] = length;
            words[14 + 2 * place] = fraction;
        }
        words
    }
}

fn settings_within_limits(k: u64, m: u64, timeout: u64) -> bool {
    (1..=MOST_INTERVALS).contains(&k) && (1..=MOST_INTERVALS).contains(&m) && (1..=MOST_TIMEOUT).contains(&timeout)
}

/// The run of a stopped record is not judged; the number before the first report is an unused place.
fn sound(words: &[u64]) -> bool {
    let [k, m, timeout, reduce, full, stopped, time, heard, reported, number, run, trial, count] = words[..13].try_into().unwrap();
    settings_within_limits(k, m, timeout)
        && [reduce, full, reported, trial].iter().all(|&flag| flag <= 1)
        && stopped <= 3
        && time < TIMES
        && heard < TIMES
        && number < if reported == 1 { 1 << 32 } else { 1 }
        && (stopped != 0 || run < m)
        && count <= k
        && words[13..].chunks(2).enumerate().all(|(place, interval)| match (place as u64) < count {
            true => (1..=MOST_LENGTH).contains(&interval[0]) && interval[1] <= MOST_FRACTION,
            false => interval == [0, 0],
        })
}

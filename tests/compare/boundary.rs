//! The decision at its boundary: the greatest rate that goes, and one above it; equality where it exists.
use crate::big::Big;
use crate::calls::{Settings, GO, REDUCE, STOP};
use crate::circuit::{heard, report, start};
use crate::compare::Compare;
use crate::lent::Lent;
use draw::{breakers, Draw};
use model::breaker::*;

/// A link whose k intervals are known, with packets heard in them; the rate of the last report decides, by the full equation or the simplified one.
struct Link {
    full: bool,
    intervals: Vec<(u64, u64)>,
    rtt: u64,
    size: u64,
}

pub fn decisions(compare: &Compare, draw: &Draw) {
    for _ in 0..4_000 {
        at_the_greatest_rate(compare, draw);
        at_equality(compare, draw);
        at_full_equality(compare, draw);
    }
    not_conversely(compare, draw);
}

fn at_the_greatest_rate(compare: &Compare, draw: &Draw) {
    let k = draw.edge(1, 32);
    let longest = draw.of(&[10, 6_000, 599_999, 11_000_000]);
    let worst = draw.of(&[3, 255]);
    let link = Link {
        full: draw.one_in(2),
        intervals: (0..k).map(|_| (draw.edge(1, longest), draw.edge(0, worst))).collect(),
        rtt: draw.edge(1, draw.of(&[300, MOST_RTT])),
        size: draw.edge(1, draw.of(&[1_500, MOST_SIZE])),
    };
    let greatest = greatest_rate(&link);
    if greatest > 0 {
        link.decides(compare, draw, greatest, true);
    }
    if greatest < MOST_RATE {
        link.decides(compare, draw, greatest + 1, false);
        compare.hold(!link.full || link.exactly_congested(greatest + 1), "the exact equation triggers where the test does");
    }
}

/// By halving: the greatest rate that is not above ten times the equation.
fn greatest_rate(link: &Link) -> u64 {
    let (mut goes, mut stops) = (0, MOST_RATE + 1);
    while stops - goes > 1 {
        let rate = (goes + stops) / 2;
        if congested(link.full, &link.stored(), link.rtt, link.size, rate) {
            stops = rate
        } else {
            goes = rate
        }
    }
    goes
}

/// By the simplified equation: with 6 j^2 as the mean fraction lost, both sides are equal where rate Tr j = 80,000 s.
fn at_equality(compare: &Compare, draw: &Draw) {
    let (j, pairs) = (draw.within(1, 6), draw.within(1, 16));
    let intervals = (0..pairs).flat_map(|_| {
        let length = draw.edge(1, draw.of(&[599_999, 599_999, 599_999, 10_000_001]));
        let off = draw.below(6 * j * j + 1).min(255 - 6 * j * j);
        [(length, 6 * j * j + off), (length, 6 * j * j - off)]
    });
    let intervals = intervals.collect();
    let size = draw.edge(1, MOST_SIZE);
    let rtt = draw.of(&[1, 2, 5, 16, 20, 100, 128, 1_000, 3_200, 40_000]);
    let size = size - size % (rtt * j).min(size);
    if size == 0 || 80_000 * size % (rtt * j) != 0 || 80_000 * size / (rtt * j) >= MOST_RATE {
        return;
    }
    let link = Link { full: false, intervals, rtt, size };
    let rate = 80_000 * size / (rtt * j);
    for (rate, goes) in [(rate - 1, true), (rate, true), (rate + 1, false)] {
        if rate > 0 {
            link.decides(compare, draw, rate, goes);
        }
    }
}

/// By the full equation both sides are equal for two n alone: 96 where rate Tr = 40,960,000 j with s = 2,131 j, and 384 where rate Tr = 320,000 j
/// with s = 313 j.
fn at_full_equality(compare: &Compare, draw: &Draw) {
    let (fraction, size, product) = draw.of(&[(24, 2_131, 40_960_000), (96, 313, 320_000)]);
    let (j, k) = (draw.within(1, MOST_SIZE / size), draw.within(1, 32));
    let rtt = draw.of(&[1, 2, 5, 16, 20, 100, 128, 1_000, 3_200, 40_000]);
    let intervals = (0..k).map(|_| (draw.edge(1, 599_999), fraction)).collect();
    let link = Link { full: true, intervals, rtt, size: size * j };
    let rate = product * j / rtt;
    if product * j % rtt == 0 && rate < MOST_RATE {
        for (rate, goes) in [(rate - 1, true), (rate, true), (rate + 1, false)] {
            link.decides(compare, draw, rate, goes);
        }
    }
}

/// By the full equation: rows where the exact equation triggers and the test does not, for its roots and p are rounded down.
fn not_conversely(compare: &Compare, draw: &Draw) {
    for (intervals, rtt, size, rate) in [
        (vec![(10_000, 64)], 1, 30_000, 94_818_958),
        (vec![(1_000, 1), (9_000, 0)], 100, 1_000, 6_175_065),
    ] {
        let link = Link { full: true, intervals, rtt, size };
        compare.hold(link.exactly_congested(rate), "the exact equation triggers");
        link.decides(compare, draw, rate, true);
    }
}

impl Link {
    /// rate^2 Tr^2 (2p/3) (1 + 9p (1 + 32 p^2))^2 > (10,000 s)^2 with p = P / q and q = 256 W, over whole numbers.
    fn exactly_congested(&self, rate: u64) -> bool {
        let (w, p) = sums(&self.stored());
        let q = 256 * w;
        let bracket = Big::product(&[q, q, q]).plus(&Big::product(&[9, p, q, q])).plus(&Big::product(&[288, p, p, p]));
        let speed = u128::from(rate) * u128::from(self.rtt);
        let left = Big::product(&[speed, speed, 2, p]).times(&bracket).times(&bracket);
        let least = u128::from(10_000 * self.size);
        let right = Big::product(&[least, least, 3, q, q, q, q, q, q, q]);
        left.above(&right)
    }

    /// A longer interval is stored as 10,000,000 ms.
    fn stored(&self) -> Vec<(u64, u64)> {
        self.intervals.iter().map(|&(length, fraction)| (length.min(MOST_LENGTH), fraction)).collect()
    }

    /// Packets heard from one report to the next, at least as many as keep the link alive: they change no answer of a report.
    fn hears(&self, compare: &Compare, draw: &Draw, breaker: &mut Lent<u64>, last: u64, next: u64) {
        let mut held = last;
        while next - held >= MOST_TIMEOUT || draw.one_in(8) {
            held += draw.edge(0, (next - held).min(MOST_TIMEOUT - 1));
            compare.hold(heard(compare, breaker, held) == 0, "a packet heard in time goes");
        }
    }

    /// k + 1 reports from a start, each with its fraction or counts that give it, the last with `rate`: it goes, or it stops or reduces.
    fn decides(&self, compare: &Compare, draw: &Draw, rate: u64, goes: bool) {
        for reduce in [0, 1] {
            let settings = Settings { k: self.intervals.len() as u64, m: 1, timeout: MOST_TIMEOUT, reduce, full: u8::from(self.full) };
            let mut breaker = Lent::new(&[0; WORDS]);
            start(compare, &mut breaker, settings, 0);
            let mut last = Report { time: 1, number: 0, loss: Loss::Fraction(255), rtt: self.rtt, size: self.size, rate: MOST_RATE };
            let mut answers = vec![report(compare, &mut breaker, &last)];
            for (place, &(length, fraction)) in self.intervals.iter().enumerate() {
                let is_last = place + 1 == self.intervals.len();
                let rate = if is_last { rate } else { MOST_RATE };
                let loss = breakers::loss_of(draw, fraction);
                self.hears(compare, draw, &mut breaker, last.time, last.time + length);
                last = Report { time: last.time + length, number: last.number + 1, loss, rate, ..last };
                answers.push(report(compare, &mut breaker, &last));
            }
            let decision = answers.pop().unwrap();
            let wanted = match (goes, reduce) {
                (true, _) => GO,
                (false, 1) => REDUCE,
                (false, _) => STOP + 3,
            };
            let as_wanted = answers.iter().all(|&answer| answer == 0) && decision == i64::from(wanted);
            compare.hold(as_wanted, &format!("{:?} with {last:?} answers {decision}", self.intervals));
        }
    }
}

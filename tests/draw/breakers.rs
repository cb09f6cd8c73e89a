//! Breaker records, and the arguments of reports.
use crate::Draw;
use model::breaker::*;

pub fn sound(draw: &Draw) -> Breaker {
    let k = draw.edge(1, 32);
    let number = (!draw.one_in(8)).then(|| draw.edge(0, u64::from(u32::MAX)));
    let m = draw.edge(1, 32);
    let stopped = if draw.one_in(6) { draw.within(1, 3) } else { 0 };
    let longest = draw.of(&[3, 6_000, 599_999, MOST_LENGTH]);
    let timeout = draw.edge(1, MOST_TIMEOUT);
    let time = if draw.one_in(2) { draw.below(1_000_000) } else { draw.edge(0, TIMES - 1) };
    let count = if draw.one_in(2) { k - draw.below(2) } else { draw.within(0, k) };
    Breaker {
        k,
        m,
        timeout,
        reduce: draw.one_in(2),
        full: draw.one_in(2),
        stopped,
        time,
        heard: heard(draw, time),
        number,
        run: if draw.one_in(2) { m - 1 } else { draw.below(m) },
        trial: draw.one_in(3),
        window: (0..count).map(|_| (draw.edge(1, longest), draw.edge(0, MOST_FRACTION))).collect(),
    }
}

/// Mostly the last report or shortly after it; now and then long after, or before.
fn heard(draw: &Draw, time: u64) -> u64 {
    let held = match draw.below(8) {
        0 => draw.edge(0, TIMES - 1),
        1 => time.saturating_sub(draw.below(3)),
        2 => time + MOST_LENGTH - 2 + draw.below(5),
        3 | 4 => time + draw.below(4_000),
        _ => time,
    };
    held.min(TIMES - 1)
}

/// Any record: now and then damaged, or of another number of words.
pub fn any(draw: &Draw) -> Vec<u64> {
    let breaker = sound(draw);
    let mut words = breaker.to_words().to_vec();
    match draw.below(10) {
        0 => damage(draw, &mut words),
        1 => pass_a_limit(draw, &mut words),
        2 if draw.one_in(4) => words.resize(draw.index(82), 0),
        _ => {}
    }
    words
}

fn damage(draw: &Draw, words: &mut [u64]) {
    let place = if draw.one_in(2) { draw.index(13) } else { draw.index(words.len()) };
    words[place] = match draw.below(4) {
        0 => words[place].wrapping_add(1),
        1 => words[place].wrapping_sub(1),
        2 => words[place] ^ 1 << draw.below(64),
        _ => draw.any_size(),
    };
}

/// One condition of a sound record, passed by as little as can be, or held with nothing to spare.
fn pass_a_limit(draw: &Draw, words: &mut [u64]) {
    let more = draw.below(2);
    let count = words[12] as usize;
    match draw.below(12) {
        0 => words[0] = 32 + more,
        1 => words[1] = 32 + more,
        2 => words[2] = MOST_TIMEOUT + more,
        3 => words[draw.of(&[3, 4, 8, 11])] = 1 + more,
        4 => words[5] = 3 + more,
        5 => words[draw.of(&[6, 7])] = TIMES - 1 + more,
        6 => words[9] = u64::from(u32::MAX) + more,
        7 => words[10] = words[1] - 1 + more,
        8 => words[12] = words[0] + more,
        9 => words[13] = MOST_LENGTH * more + draw.below(2),
        10 => words[14] = 255 + more,
        _ => words[13 + 2 * count.min(31) + draw.index(2)] = more,
    }
}

/// A report to follow `breaker`, mostly within the limits and near the rules' edges.
pub fn report(draw: &Draw, breaker: &Breaker) -> Report {
    let last = breaker.number.unwrap_or_else(|| draw.u64()) as u32;
    Report {
        time: time(draw, breaker),
        number: number(draw, last),
        loss: loss(draw),
        rtt: if draw.one_in(2) { draw.below(400) } else { draw.astray(0, MOST_RTT) },
        size: if draw.one_in(2) { draw.within(1, 1_500) } else { draw.astray(1, MOST_SIZE) },
        rate: if draw.one_in(2) { draw.below(2_000_000) } else { draw.astray(0, MOST_RATE) },
    }
}

pub fn loss(draw: &Draw) -> Loss {
    if draw.one_in(2) {
        Loss::Fraction(draw.astray(0, MOST_FRACTION))
    } else {
        counts(draw)
    }
}

/// Few packets expected or many, and numbers lost and marked around as many, below 0, and at the limits.
fn counts(draw: &Draw) -> Loss {
    let expected = match draw.below(4) {
        0 => draw.below(4),
        1 => draw.astray(0, MOST_PACKETS),
        _ => draw.below(3_000),
    };
    let marked = if draw.one_in(4) { draw.astray(0, MOST_PACKETS) } else { draw.below(expected.min(MOST_PACKETS) + 3) };
    let rest = expected.wrapping_sub(marked) as i64;
    let lost = match draw.below(6) {
        0 => -(draw.below(3_000) as i64),
        1 => draw.of(&[-1, 1]) * (MOST_PACKETS - 1 + draw.below(3)) as i64,
        2 => draw.any_size() as i64,
        3 => draw.below(expected.min(MOST_PACKETS) / 8 + 1) as i64,
        _ => rest.wrapping_add(draw.below(3) as i64 - 1),
    };
    Loss::Counts { lost, marked, expected }
}

/// The fraction itself, or counts that give it: of 256 n packets some n times as many lost and marked, and fewer than n above that.
pub fn loss_of(draw: &Draw, fraction: u64) -> Loss {
    if draw.one_in(2) {
        return Loss::Fraction(fraction);
    }
    let n = draw.edge(1, draw.of(&[4, MOST_PACKETS / 256]));
    let gone = fraction * n + draw.edge(0, n - 1);
    let lost = draw.edge(0, gone);
    let marked = gone - lost;
    let lost = if lost == 0 { -(draw.below(9) as i64) } else { lost as i64 };
    Loss::Counts { lost, marked, expected: 256 * n }
}

/// Times around the last report and the time held, around the timeout, and between.
pub fn time(draw: &Draw, breaker: &Breaker) -> u64 {
    let held = breaker.heard;
    match draw.below(20) {
        0 => draw.any_size(),
        1 => draw.astray(0, TIMES - 1),
        2 => draw.of(&[breaker.time, held]).saturating_sub(draw.below(3)),
        3 => draw.of(&[breaker.time, held, held]).wrapping_add(breaker.timeout).wrapping_sub(draw.below(3)),
        4 => draw.of(&[breaker.time, held]).wrapping_add(draw.below(3)),
        _ => breaker.time.max(held).wrapping_add(draw.within(1, breaker.timeout.saturating_sub(1).clamp(1, 10_000))),
    }
}

pub fn number(draw: &Draw, last: u32) -> u32 {
    let half = 1 << 31;
    let step = match draw.below(8) {
        0 => 0,
        1 => draw.of(&[half - 1, half, half + 1, u32::MAX]),
        2 => draw.u64() as u32,
        _ => draw.below(5_000) as u32,
    };
    last.wrapping_add(step)
}

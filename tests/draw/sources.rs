//! Records of one source: reached by arrivals, made at the limits, and damaged.
use crate::{arrivals, Draw};
use model::source::{Source, MOST_ARRIVALS, WORDS};
use model::truth::counted;

/// A record that may remember a number: any, one at an end, or one near the highest.
pub fn sound(draw: &Draw) -> Vec<u64> {
    let mut words = match draw.below(10) {
        0 => return vec![0; WORDS],
        1..=5 => counted(&arrivals::list(draw)).to_words(),
        _ => at_the_limits(draw),
    };
    words[9] = match draw.below(6) {
        0 => draw.edge(1, 65_536),
        1 => 1 + u64::from(draw.u64() as u16),
        2 => 1 + u64::from((words[1] as u16).wrapping_add(draw.below(7) as u16).wrapping_sub(3)),
        _ => 0,
    };
    words.to_vec()
}

/// Any record: now and then damaged, or of another number of words.
pub fn any(draw: &Draw) -> Vec<u64> {
    let mut words = sound(draw);
    match draw.below(8) {
        0 => damage(draw, &mut words),
        1 => pass_a_limit(draw, &mut words),
        2 if draw.one_in(4) => words.resize(draw.index(13), 0),
        _ => {}
    }
    words
}

/// A sound record where some conditions hold with nothing to spare.
fn at_the_limits(draw: &Draw) -> [u64; WORDS] {
    let places = if draw.one_in(2) { draw.within(1, 4) } else { draw.within(1, 100) };
    let distinct = if draw.one_in(2) { places } else { places + draw.any_size() % (MOST_ARRIVALS - 200) };
    let most_duplicates = MOST_ARRIVALS - distinct;
    let duplicates = if draw.one_in(3) { most_duplicates - draw.below(3) } else { draw.any_size() % most_duplicates };
    let base = draw.edge(0, 65_535);
    let mut words = [0; WORDS];
    words[0] = base;
    words[1] = base + draw.edge(0, 2_999 * (distinct - 1));
    share_marks(draw, distinct + duplicates, &mut words[2..6]);
    words[6] = duplicates;
    words[7] = 1;
    while u64::from(words[7].count_ones() + words[8].count_ones()) < places {
        let place = draw.index(100);
        words[7 + place / 64] |= 1 << (place % 64);
    }
    words
}

fn share_marks(draw: &Draw, arrivals: u64, marks: &mut [u64]) {
    let mut left = arrivals;
    for mark in 0..3 {
        marks[mark] = if draw.one_in(4) { 0 } else { draw.below(left + 1) };
        left -= marks[mark];
    }
    marks[3] = left;
    draw.shuffle(marks);
}

fn damage(draw: &Draw, words: &mut [u64]) {
    let place = draw.index(words.len());
    words[place] = match draw.below(6) {
        0 => words[place].wrapping_add(1),
        1 => words[place].wrapping_sub(1),
        2 => words[place] ^ 1 << draw.below(64),
        3 => 0,
        4 => draw.of(&[1, 65_535, 65_536, 65_537, 1 << 48, (1 << 48) + 1, 1 << 62, 1 << 63, u64::MAX]),
        _ => draw.any_size(),
    };
}

/// One condition of a sound record, passed by as little as can be, or held with nothing to spare.
fn pass_a_limit(draw: &Draw, words: &mut [u64]) {
    let source = Source::from_words(words).unwrap();
    let arrivals = source.arrivals();
    let distinct = arrivals - source.duplicates;
    let more = draw.below(2);
    match draw.below(9) {
        0 => words[0] = 65_535 + more,
        1 => words[1] = words[0].wrapping_sub(more),
        2 => words[2] += MOST_ARRIVALS - arrivals + more,
        3 => words[6] = arrivals.saturating_sub(1) + more,
        4 => words[7] ^= more,
        5 => words[8] ^= 1 << (35 + more),
        6 => words[1] = words[0] + 2_999 * distinct.saturating_sub(1) + more,
        7 => words[9] = 65_536 + more,
        _ => {
            // The marks' sum comes out right if it is taken modulo 2^64.
            words[2] = words[2].wrapping_add(1 << 63);
            words[5] = words[5].wrapping_add(1 << 63);
        }
    }
}

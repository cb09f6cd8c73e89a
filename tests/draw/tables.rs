//! Tables of several sources: sound ones, with places of low, high and neighbouring SSRCs, and damaged ones.
use crate::{sources, Draw};
use model::streams::{MOST_PLACES, PLACE};
use std::collections::BTreeSet;

/// An SSRC that often is one of few, so that calls meet the same ones.
pub fn ssrc(draw: &Draw) -> u32 {
    match draw.below(4) {
        0 => draw.edge(0, u64::from(u32::MAX)) as u32,
        1 => draw.u64() as u32,
        _ => draw.below(24) as u32,
    }
}

/// The SSRC of a place, or one beside it, or another.
pub fn ssrc_near(draw: &Draw, words: &[u64]) -> u32 {
    match words.len() / PLACE {
        0 => ssrc(draw),
        _ if draw.one_in(3) => ssrc(draw),
        places => (words[PLACE * draw.index(places)] as u32).wrapping_add(draw.of(&[0, 0, 0, 1, u32::MAX])),
    }
}

/// Up to 16 places, some or all of them held.
pub fn sound(draw: &Draw) -> Vec<u64> {
    let places = draw.edge(0, MOST_PLACES as u64) as usize;
    let held = if draw.one_in(3) { places } else { draw.index(places + 1) };
    let mut ssrcs = BTreeSet::new();
    while ssrcs.len() < held {
        ssrcs.insert(ssrc(draw));
    }
    let mut words: Vec<u64> = ssrcs.into_iter().flat_map(|ssrc| [vec![u64::from(ssrc)], held_record(draw)].concat()).collect();
    words.resize(PLACE * places, 0);
    words
}

/// The record of a held place.
pub fn held_record(draw: &Draw) -> Vec<u64> {
    loop {
        let words = sources::sound(draw);
        if words[2..6].iter().any(|&count| count > 0) {
            return words;
        }
    }
}

/// A table with one to three faults.
pub fn damaged(draw: &Draw) -> Vec<u64> {
    let mut words = sound(draw);
    for _ in 0..draw.within(1, 3) {
        damage(draw, &mut words);
    }
    words
}

fn damage(draw: &Draw, words: &mut Vec<u64>) {
    let places = words.len() / PLACE;
    if places == 0 || draw.one_in(12) {
        words.resize(draw.of(&[1, 10, 12, PLACE, PLACE * MOST_PLACES, PLACE * MOST_PLACES + 1, PLACE * (MOST_PLACES + 1)]), 0);
        return;
    }
    let at = PLACE * draw.index(places);
    let other = PLACE * draw.index(places);
    match draw.below(9) {
        0 => words[at] = words[other],
        1 => words[at] = draw.of(&[1 << 32, (1 << 32) - 1, u64::MAX, 0]),
        2 => (0..PLACE).for_each(|word| words.swap(at + word, other + word)),
        3 => words[at..at + PLACE].fill(0),
        4 => words[at + 10] = draw.of(&[1, 65_536, 65_537, u64::MAX]),
        5 => words[at + 3..at + 7].fill(0),
        6 => words.swap(at, other),
        _ => {
            let word = at + draw.index(PLACE);
            words[word] = draw.of(&[0, 1, words[word].wrapping_add(1), words[word] ^ 1 << draw.below(64), u64::MAX]);
        }
    }
}

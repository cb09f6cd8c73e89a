//! An arrival counted in plain Rust over the ten words of include/flasknib.h, with every check that the library makes of them.
use crate::rings::RESTARTED;

const MOST: u64 = 1 << 48;
const MOST_AHEAD: u64 = 2_999;
const PLACES: u32 = 100;

/// Base, highest, the four marks, the duplicates, the history (places 0 to 63 and 64 to 99), and the remembered number plus 1, or 0.
type Words = [u64; 10];

fn arrivals(words: &Words) -> u64 {
    words[2] + words[3] + words[4] + words[5]
}

fn history(words: &Words) -> u128 {
    u128::from(words[8]) << 64 | u128::from(words[7])
}

fn set_history(words: &mut Words, places: u128) {
    words[7] = places as u64;
    words[8] = (places >> 64) as u64;
}

/// Fresh, or one that has counted (document 01, "Counting").
fn is_sound(words: &Words) -> bool {
    let &[base, highest, .., recent, _, remembered] = words;
    let (base, highest) = (base as i64, highest as i64);
    if words.iter().all(|&word| word == 0) {
        return true;
    }
    if base < 0 || base > 65_535 || highest < base || words[2..6].iter().any(|&count| count > MOST) {
        return false;
    }
    let (n, duplicates) = (arrivals(words), words[6]);
    if n == 0 || n > MOST || duplicates >= n {
        return false;
    }
    let (places, distinct) = (history(words), n - duplicates);
    recent & 1 == 1
        && places >> PLACES == 0
        && u64::from(places.count_ones()) <= distinct
        && (highest - base) as u64 <= MOST_AHEAD * (distinct - 1)
        && remembered <= 65_536
}

/// 0, RESTARTED, or refusal 9, 10, 8 or 7.
pub fn arrive(words: &mut [u64], wire: u16, mark: u8) -> u8 {
    let Ok(words) = <&mut Words>::try_from(words) else {
        return 9;
    };
    if !is_sound(words) {
        return 9;
    }
    if mark > 3 {
        return 10;
    }
    if arrivals(words) == MOST {
        return 8;
    }
    if arrivals(words) == 0 {
        begin(words, wire);
    } else {
        let d = wire.wrapping_sub(words[1] as u16);
        match d {
            1..=2_999 => move_on(words, u32::from(d)),
            0 | 65_437..=65_535 => mark_below(words, d.wrapping_neg()),
            _ => return jumped(words, wire, mark),
        }
    }
    accept(words, mark)
}

fn begin(words: &mut Words, wire: u16) {
    words[0] = u64::from(wire);
    words[1] = u64::from(wire);
    set_history(words, 1);
}

fn accept(words: &mut Words, mark: u8) -> u8 {
    words[2 + usize::from(mark)] += 1;
    words[9] = 0;
    0
}

fn move_on(words: &mut Words, by: u32) {
    let moved = if by < PLACES { history(words) << by & ((1 << PLACES) - 1) } else { 0 };
    set_history(words, moved | 1);
    words[1] += u64::from(by);
}

fn mark_below(words: &mut Words, below: u16) {
    let places = history(words);
    words[6] += (places >> below) as u64 & 1;
    set_history(words, places | 1 << below);
}

/// A jump with the remembered number begins again; any other is remembered by the number that would follow it.
fn jumped(words: &mut Words, wire: u16, mark: u8) -> u8 {
    if words[9] != u64::from(wire) + 1 {
        words[9] = u64::from(wire.wrapping_add(1)) + 1;
        return 7;
    }
    *words = [0; 10];
    begin(words, wire);
    accept(words, mark);
    RESTARTED
}

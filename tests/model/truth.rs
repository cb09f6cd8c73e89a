//! Document 01, demand 3's count: it runs nothing. It is taken with sets over the list of true numbers with their marks.
use crate::source::{Source, MOST_AHEAD, PLACES};
use std::collections::BTreeSet;

/// A true number and the mark of the call; the wire number is the true one modulo 65,536.
pub type Arrival = (i64, u8);

pub fn wire(number: i64) -> u16 {
    number.rem_euclid(65_536) as u16
}

pub fn counted(list: &[Arrival]) -> Source {
    let list: Vec<Arrival> = list.iter().copied().filter(|&(_, mark)| mark <= 3).collect();
    let Some(&(base, _)) = list.first() else {
        return Source::default();
    };
    let numbers: BTreeSet<i64> = list.iter().map(|&(number, _)| number).collect();
    let highest = *numbers.last().unwrap();
    let with = |mark| list.iter().filter(|&&(_, other)| other == mark).count() as u64;
    Source {
        base,
        highest,
        marks: [with(0), with(1), with(2), with(3)],
        duplicates: (list.len() - numbers.len()) as u64,
        history: numbers.range(highest - (PLACES - 1)..).copied().collect(),
        remembered: None,
    }
}

/// Highest less base, plus one, less the number of different numbers.
pub fn lost(list: &[Arrival]) -> i64 {
    let numbers: BTreeSet<i64> = list.iter().filter(|&&(_, mark)| mark <= 3).map(|&(number, _)| number).collect();
    match list.iter().find(|&&(_, mark)| mark <= 3) {
        Some(&(base, _)) => numbers.last().unwrap() - base + 1 - numbers.len() as i64,
        None => 0,
    }
}

/// Whether each number is at most 99 below and at most 2,999 above the highest before it, and the first is its own wire number.
pub fn keeps_to_the_limits(list: &[Arrival]) -> bool {
    let mut highest = None;
    for &(number, _) in list.iter().filter(|&&(_, mark)| mark <= 3) {
        let within = match highest {
            None => (0..=65_535).contains(&number),
            Some(highest) => (highest - (PLACES - 1)..=highest + MOST_AHEAD).contains(&number),
        };
        if !within {
            return false;
        }
        highest = highest.max(Some(number));
    }
    true
}

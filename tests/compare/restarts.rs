//! Document 02, L5, by hand: a sender that begins again. The answers and the records stand here as numbers; they hold the library and the model.
use crate::calls::{RESTART, RESTARTED};
use crate::compare::Compare;
use crate::counting::{arrive, count_block, record};
use crate::lent::Lent;
use model::source::WORDS;

type Record = [u64; WORDS];

/// The record of one arrival with mark 2.
const fn first(wire: u64, remembered: u64) -> Record {
    [wire, wire, 0, 0, 1, 0, 0, 1, 0, remembered]
}

/// The record at 2^48 arrivals, all of number 5, and at one fewer.
const FULL: Record = [5, 5, 0, 0, 1 << 48, 0, (1 << 48) - 1, 1, 0, 0];
const LAST: Record = [5, 5, 0, 0, (1 << 48) - 1, 0, (1 << 48) - 2, 1, 0, 0];

/// Single calls: a record, wire numbers with their marks and the answers, and the last record.
type Calls<'a> = (&'a str, Record, &'a [(u16, u8, u8)], Record);

const CALLS: [Calls; 14] = [
    ("behind a fresh record", [0; WORDS], &[(5, 2, 0), (30_000, 2, 7), (30_001, 2, RESTARTED)], first(30_001, 0)),
    ("the first arrival is no jump", [0; WORDS], &[(30_000, 2, 0)], first(30_000, 0)),
    ("over the wrap", first(30_000, 0), &[(65_535, 0, 7), (0, 2, RESTARTED)], first(0, 0)),
    ("first, other, its next", first(5, 0), &[(30_000, 2, 7), (40_000, 2, 7), (40_001, 2, RESTARTED)], first(40_001, 0)),
    ("another in between", first(5, 0), &[(30_000, 2, 7), (40_000, 2, 7), (30_001, 2, 7)], first(5, 30_003)),
    ("the same again", first(5, 0), &[(30_000, 2, 7), (30_000, 2, 7), (30_001, 2, RESTARTED)], first(30_001, 0)),
    ("an accepted one forgets", first(5, 0), &[(30_000, 2, 7), (5, 2, 0), (30_001, 2, 7)], [5, 5, 0, 0, 2, 0, 1, 1, 0, 30_003]),
    ("a mark above 3 does not", first(5, 0), &[(30_000, 2, 7), (30_001, 4, 10), (30_001, 2, RESTARTED)], first(30_001, 0)),
    ("a mark above 3 at the first", first(5, 0), &[(30_000, 4, 10), (30_001, 2, 7)], first(5, 30_003)),
    ("remembered, but in the window", first(5, 7), &[(6, 2, 0)], [5, 6, 0, 0, 2, 0, 0, 3, 0, 0]),
    ("the next behind a restart", first(5, 30_002), &[(30_001, 3, RESTARTED), (30_002, 2, 0)], [30_001, 30_002, 0, 0, 1, 1, 0, 3, 0, 0]),
    ("full: nothing is remembered", FULL, &[(30_000, 2, 8), (30_001, 2, 8)], FULL),
    ("to full, and no pair", LAST, &[(30_000, 2, 7), (5, 2, 0), (30_001, 2, 8)], FULL),
    ("one below full, a restart", LAST, &[(30_000, 2, 7), (30_001, 2, RESTARTED), (30_002, 2, 0)], [30_001, 30_002, 0, 0, 2, 0, 0, 3, 0, 0]),
];

/// Blocks in turn, each with its jumps and restarts, and the last record.
type Blocks<'a> = (&'a str, Record, &'a [(&'a [u16], i64, i64)], Record);

const BLOCKS: [Blocks; 7] = [
    ("in one block", [0; WORDS], &[(&[5, 30_000, 30_001], 1, 1)], first(30_001, 0)),
    ("over a block's end", [0; WORDS], &[(&[5, 30_000], 1, 0), (&[30_001], 0, 1)], first(30_001, 0)),
    ("over the wrap", first(30_000, 0), &[(&[65_535, 0, 1], 1, 1)], [0, 1, 0, 0, 2, 0, 0, 3, 0, 0]),
    ("twice", first(5, 0), &[(&[30_000, 30_001, 50_000, 50_001], 2, 2)], first(50_001, 0)),
    ("first, other, its next", first(5, 0), &[(&[30_000, 40_000, 40_001], 2, 1)], first(40_001, 0)),
    ("forgotten between blocks", first(5, 0), &[(&[30_000], 1, 0), (&[6], 0, 0), (&[30_001], 1, 0)], [5, 6, 0, 0, 2, 0, 0, 3, 0, 30_003]),
    ("full, with a number remembered", with(FULL, 30_002), &[(&[30_001, 30_002], 0, 0)], with(FULL, 30_002)),
];

const fn with(mut record: Record, remembered: u64) -> Record {
    record[9] = remembered;
    record
}

pub fn examples(compare: &Compare) {
    for (name, before, calls, after) in CALLS {
        let mut source = Lent::new(&before);
        let as_wanted = calls.iter().all(|&(wire, mark, answer)| arrive(compare, &mut source, wire, mark) == answer);
        compare.hold(as_wanted && source.part() == after, &format!("single calls, {name}: {:?}", source.part()));
    }
    for (name, before, blocks, after) in BLOCKS {
        let mut source = Lent::new(&before);
        for &(wires, jumps, restarts) in blocks {
            let records: Vec<u8> = wires.iter().flat_map(|&wire| record(wire, 2)).collect();
            let answer = count_block(compare, &mut source, &records, 4);
            compare.hold(answer == RESTART * restarts + jumps, &format!("blocks, {name}: {answer}"));
        }
        compare.hold(source.part() == after, &format!("blocks, {name}: {:?}", source.part()));
    }
    mark_above_3(compare);
    remembered_words(compare);
}

/// A block with a mark above 3 in a pair's second packet is refused as a whole, and changes nothing.
fn mark_above_3(compare: &Compare) {
    let before = Lent::new(&first(5, 0));
    let mut source = before.clone();
    let answer = count_block(compare, &mut source, &[record(30_000, 2), record(30_001, 4)].concat(), 4);
    compare.hold(answer == -10 && source == before, "a block with a mark above 3 in a pair");
}

/// The words of a remembered number: none, and the wire numbers 0 and 65,535; above them malformed; in a fresh record none but 0.
fn remembered_words(compare: &Compare) {
    for (word, wire, answer) in [(0, 0, 7), (1, 0, RESTARTED), (65_536, 65_535, RESTARTED), (65_537, 0, 9), (u64::MAX, 65_534, 9)] {
        let mut source = Lent::new(&first(30_000, word));
        compare.hold(arrive(compare, &mut source, wire, 2) == answer, &format!("the word {word} of a remembered number"));
    }
    for word in [1, 65_536, 65_537] {
        compare.hold(arrive(compare, &mut Lent::new(&with([0; WORDS], word)), 5, 2) == 9, "a fresh record that remembers a number");
    }
}

//! Document 02, L1, by hand: calls on one table. The answers and the words stand here as numbers; they hold the library and the model.
use crate::compare::Compare;
use crate::lent::Lent;
use crate::tables::arrive;
use model::streams::PLACE;

type Place = [u64; PLACE];

const EMPTY: Place = [0; PLACE];

/// The place of an SSRC with one arrival, of mark 2.
const fn first(ssrc: u64, wire: u64, remembered: u64) -> Place {
    [ssrc, wire, wire, 0, 0, 1, 0, 0, 1, 0, remembered]
}

/// Numbers 5 and 6 of an SSRC, both with mark 2.
const fn two(ssrc: u64) -> Place {
    [ssrc, 5, 6, 0, 0, 2, 0, 0, 3, 0, 0]
}

/// 2^48 arrivals of number 5.
const fn full(ssrc: u64) -> Place {
    [ssrc, 5, 5, 0, 0, 1 << 48, 0, (1 << 48) - 1, 1, 0, 0]
}

const MALFORMED: Place = [7, 5, 5, 0, 0, 1, 0, 1, 1, 0, 0];

/// A table; an SSRC, its wire number and mark; the answer; the table afterwards.
type Call<'a> = (&'a str, &'a [Place], (u32, u16, u8), u8, &'a [Place]);

const CALLS: [Call; 19] = [
    ("into an empty table", &[EMPTY, EMPTY], (7, 5, 2), 0, &[first(7, 5, 0), EMPTY]),
    ("below another", &[first(7, 5, 0), EMPTY], (3, 9, 2), 0, &[first(3, 9, 0), first(7, 5, 0)]),
    ("above another", &[first(7, 5, 0), EMPTY], (8, 9, 2), 0, &[first(7, 5, 0), first(8, 9, 0)]),
    ("between two", &[first(2, 1, 0), first(9, 2, 0), EMPTY], (7, 5, 2), 0, &[first(2, 1, 0), first(7, 5, 0), first(9, 2, 0)]),
    ("SSRC 0", &[first(7, 5, 0), EMPTY], (0, 5, 2), 0, &[first(0, 5, 0), first(7, 5, 0)]),
    ("one that is held", &[first(3, 9, 0), first(7, 5, 0)], (7, 6, 2), 0, &[first(3, 9, 0), two(7)]),
    ("a jump", &[first(3, 9, 0), first(7, 5, 0)], (7, 30_000, 2), 7, &[first(3, 9, 0), first(7, 5, 30_002)]),
    ("a restart", &[first(3, 9, 0), first(7, 5, 30_002)], (7, 30_001, 2), 128, &[first(3, 9, 0), first(7, 30_001, 0)]),
    ("no place left", &[first(7, 5, 0)], (8, 5, 2), 15, &[first(7, 5, 0)]),
    ("no place at all", &[], (8, 5, 2), 15, &[]),
    ("10 before 15", &[first(7, 5, 0)], (8, 5, 4), 10, &[first(7, 5, 0)]),
    ("full", &[full(7)], (7, 5, 2), 8, &[full(7)]),
    ("15 where another is full", &[full(7)], (8, 5, 2), 15, &[full(7)]),
    ("a malformed record of another", &[first(3, 9, 0), MALFORMED], (3, 10, 2), 9, &[first(3, 9, 0), MALFORMED]),
    ("9 before 10", &[MALFORMED], (7, 6, 4), 9, &[MALFORMED]),
    ("twice", &[first(7, 5, 0), first(7, 6, 0)], (7, 7, 2), 16, &[first(7, 5, 0), first(7, 6, 0)]),
    ("16 before 9", &[MALFORMED, first(3, 9, 0)], (7, 6, 2), 16, &[MALFORMED, first(3, 9, 0)]),
    ("an SSRC without an arrival", &[with(EMPTY, 0, 7)], (7, 6, 2), 16, &[with(EMPTY, 0, 7)]),
    ("an unused place in front", &[EMPTY, first(3, 9, 0)], (3, 10, 2), 16, &[EMPTY, first(3, 9, 0)]),
];

const fn with(mut place: Place, word: usize, value: u64) -> Place {
    place[word] = value;
    place
}

pub fn examples(compare: &Compare) {
    for (name, before, (ssrc, wire, mark), wanted, after) in CALLS {
        let mut table = Lent::new(&before.concat());
        let answer = arrive(compare, &mut table, ssrc, wire, mark);
        compare.hold(answer == wanted && table.part() == after.concat(), &format!("a table, {name}: {answer}, {:?}", table.part()));
    }
    words(compare);
}

/// Words alone: their number, and those of an SSRC and of a remembered number.
fn words(compare: &Compare) {
    let sixteen = vec![0; 16 * PLACE];
    let seventeen = vec![0; 17 * PLACE];
    let tables: [(&[u64], u8); 8] = [
        (&sixteen, 0),
        (&seventeen, 16),
        (&sixteen[1..], 16),
        (&sixteen[..1], 16),
        (&with(first(7, 5, 0), 0, 1 << 32), 16),
        (&with(EMPTY, 0, 1 << 32), 16),
        (&first(7, 5, 65_537), 9),
        (&with(EMPTY, 10, 65_537), 16),
    ];
    for (words, wanted) in tables {
        let answer = arrive(compare, &mut Lent::new(words), 7, 6, 2);
        compare.hold(answer == wanted, &format!("a table of {} words, of which the first is {:?}: {answer}", words.len(), words.first()));
    }
}

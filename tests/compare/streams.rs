//! flasknib_streams_start, flasknib_streams_block and flasknib_streams_row: single calls on runs of every kind, and whole traces, whose answers are the
//! table of several sources.
use crate::compare::Compare;
use crate::lent::Lent;
use draw::{blocks, tables, traces, Draw};
use model::source::MOST_ARRIVALS;
use model::streams::{table, Run, LINE, LINE_WORDS, MOST_PLACES, RUN_WORDS};
use model::table::HEAD;
use model::trace::{arrivals_block, label_block, refused_line, FORMS};
use std::collections::BTreeSet;

/// No row is longer.
const MOST: usize = 1_228;

pub fn calls(compare: &Compare, draw: &Draw) {
    for _ in 0..20_000 {
        start(compare, &blocks::any(draw), &vec![draw.u64(); draw.room(RUN_WORDS)]);
        single(compare, draw);
    }
    for _ in 0..1_500 {
        let trace = traces::streams(draw, 30);
        whole(compare, draw, &if draw.one_in(2) { traces::damaged(draw, trace) } else { trace });
    }
}

/// Gives the answer and the words of `run` after the call.
fn start(compare: &Compare, zeroth: &[u8], run: &[u64]) -> (i64, Vec<u64>) {
    let mut lent = (Lent::new(zeroth), Lent::new(run));
    let answer =
        compare.call("flasknib_streams_start", &mut lent, |calls, (zeroth, run)| i64::from(calls.streams_start(zeroth.part(), run.part_mut())));
    (answer, lent.1.part().to_vec())
}

/// Gives the answer, and the words of `run` and of `lines` after the call.
fn block(compare: &Compare, run: &[u64], lines: &[u64], block: &[u8]) -> (i64, Vec<u64>, Vec<u64>) {
    let mut lent = (Lent::new(run), Lent::new(lines), Lent::new(block));
    let answer = compare.call("flasknib_streams_block", &mut lent, |calls, (run, lines, block)| {
        i64::from(calls.streams_block(run.part_mut(), lines.part_mut(), block.part()))
    });
    (answer, lent.0.part().to_vec(), lent.1.part().to_vec())
}

/// Gives the answer and the bytes of `out` after the call.
fn row(compare: &Compare, run: &[u64], i: usize, lines: &[u64], zeroth: &[u8], out: &[u8]) -> (i64, Vec<u8>) {
    let mut lent = (Lent::new(run), Lent::new(lines), Lent::new(zeroth), Lent::new(out));
    let answer = compare.call("flasknib_streams_row", &mut lent, |calls, (run, lines, zeroth, out)| {
        calls.streams_row(run.part(), i, lines.part(), zeroth.part(), out.part_mut())
    });
    (answer, lent.3.part().to_vec())
}

/// The words of held lines, and any behind them.
fn lines(draw: &Draw, held: usize) -> Vec<u64> {
    let mut ssrcs = BTreeSet::new();
    while ssrcs.len() < held {
        ssrcs.insert(tables::ssrc(draw));
    }
    let tally = || vec![draw.edge(0, MOST_ARRIVALS), draw.edge(0, MOST_ARRIVALS)];
    let mut words: Vec<u64> = ssrcs.into_iter().flat_map(|ssrc| [vec![u64::from(ssrc)], tables::held_record(draw), tally()].concat()).collect();
    words.resize_with(LINE_WORDS + draw.index(3), || draw.any_size());
    words
}

/// A fault of a held line or of the one behind: an SSRC twice, falling or too large, no arrival, a malformed record, jumped or restarts past the limit.
fn damage(draw: &Draw, lines: &mut [u64], held: usize) {
    let at = LINE * draw.index((held + 1).min(MOST_PLACES));
    let other = LINE * draw.index(held.max(1));
    match draw.below(8) {
        0 => lines[at] = lines[other],
        1 => lines[at] = lines[at].wrapping_add(draw.of(&[1, 1 << 32, u64::MAX])),
        2 => lines.swap(at, other),
        3 => lines[at + 3..at + 7].fill(0),
        4 => lines[at + 10] = draw.of(&[65_536, 65_537, u64::MAX]),
        5 => lines[at + 11 + draw.index(2)] = draw.of(&[MOST_ARRIVALS, MOST_ARRIVALS + 1, u64::MAX]),
        6 => (0..LINE).for_each(|word| lines.swap(at + word, other + word)),
        _ => lines[at + draw.index(LINE)] = draw.any_size(),
    }
}

/// A later block and a row of a run; now and then its words, its lines or block 0 are damaged, or the block is of another trace.
fn single(compare: &Compare, draw: &Draw) {
    let (form, label) = (draw.of(&FORMS), blocks::label(draw));
    let held = draw.edge(0, MOST_PLACES as u64) as usize;
    let mut words = vec![form as u64 + 1, label.len() as u64, held as u64];
    let mut lines = lines(draw, held);
    let at = draw.index(held.max(1));
    let ssrc = if held > 0 && draw.one_in(2) { lines[LINE * at] as u32 } else { tables::ssrc(draw) };
    let mut zeroth = label_block(form, &label, tables::ssrc(draw)).unwrap();
    let mut later = arrivals_block(form, &blocks::records(draw, form, traces::times(draw, form)), ssrc).unwrap();
    let mut i = at;
    (0..draw.of(&[0, 0, 0, 0, 1, 2])).for_each(|_| damage(draw, &mut lines, held));
    match draw.below(18) {
        0 => words[draw.index(RUN_WORDS)] = draw.any_size(),
        1 => words[0] = draw.below(4),
        2 => words[1] = draw.edge(0, 503),
        3 => words[2] = draw.edge(0, 18),
        4 => words.resize(draw.index(6), 0),
        5 => lines.truncate(draw.edge(0, LINE_WORDS as u64) as usize),
        6 => blocks::flip(draw, &mut zeroth),
        7 => blocks::damage_contents(draw, &mut zeroth),
        8 => zeroth.resize(draw.of(&[0, 511, 513]), 0),
        9 => later = blocks::any(draw),
        10 => later = traces::damaged(draw, later),
        11 => i = draw.of(&[held, held + 1, usize::MAX]),
        _ => {}
    }
    let size = Run::from_words(&words, &lines).and_then(|run| run.row(i, &zeroth)).map_or(80, |row| row.len());
    row(compare, &words, i, &lines, &zeroth, &vec![draw.u64() as u8; draw.room(size)]);
    block(compare, &words, &lines, &later);
}

/// The calls over a trace give its table.
fn whole(compare: &Compare, draw: &Draw, trace: &[u8]) {
    let blocks = model::trace::blocks(trace);
    let mut told = HEAD.to_vec();
    let (mut answer, mut run) = start(compare, blocks[0], &[0; RUN_WORDS]);
    let mut lines = vec![draw.u64(); LINE_WORDS];
    let mut index = 0;
    while answer == 0 && index + 1 < blocks.len() {
        index += 1;
        (answer, run, lines) = block(compare, &run, &lines, blocks[index]);
    }
    if answer == 0 {
        for i in 0..run[2] as usize {
            let (length, out) = row(compare, &run, i, &lines, blocks[0], &[0; MOST]);
            told.extend(&out[..length as usize]);
        }
    } else {
        told.extend(refused_line(answer as u8, index as u64));
    }
    compare.hold(told == table(trace), &format!("a trace of {} bytes has another table", trace.len()));
}

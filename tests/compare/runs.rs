//! flasknib_run_start and flasknib_run_block: single calls on runs of every kind, and whole traces, whose answers are the table.
use crate::compare::Compare;
use crate::lent::Lent;
use draw::{blocks, sources, traces, Draw};
use model::converter::{table, Run, WORDS};
use model::source::MOST_ARRIVALS;
use model::table::HEAD;
use model::trace::{refused_line, BLOCK};

/// No row is longer.
const MOST: usize = 1_228;

pub fn calls(compare: &Compare, draw: &Draw) {
    for _ in 0..20_000 {
        start(compare, &blocks::any(draw), &vec![draw.u64(); draw.sized(WORDS)]);
        single(compare, draw);
    }
    for _ in 0..1_500 {
        let trace = traces::sound(draw, 6);
        whole(compare, &if draw.one_in(2) { traces::damaged(draw, trace) } else { trace });
    }
}

/// Gives the answer and the words of `run` after the call.
fn start(compare: &Compare, zeroth: &[u8], run: &[u64]) -> (i64, Vec<u64>) {
    let mut lent = (Lent::new(zeroth), Lent::new(run));
    let answer =
        compare.call("flasknib_run_start", &mut lent, |calls, (zeroth, run)| i64::from(calls.run_start(zeroth.part(), run.part_mut())));
    (answer, lent.1.part().to_vec())
}

/// Gives the answer, and the words of `run` and the bytes of `out` after the call.
fn block(compare: &Compare, run: &[u64], zeroth: &[u8], block: &[u8], out: &[u8]) -> (i64, Vec<u64>, Vec<u8>) {
    let mut lent = (Lent::new(run), Lent::new(zeroth), Lent::new(block), Lent::new(out));
    let answer = compare.call("flasknib_run_block", &mut lent, |calls, (run, zeroth, block, out)| {
        calls.run_block(run.part_mut(), zeroth.part(), block.part(), out.part_mut())
    });
    (answer, lent.0.part().to_vec(), lent.3.part().to_vec())
}

/// A call on a run of a trace's label with any record; now and then the words or block 0 are damaged, or the block is of another trace.
fn single(compare: &Compare, draw: &Draw) {
    let trace = loop {
        let trace = traces::sound(draw, 1);
        if trace.len() > BLOCK {
            break trace;
        }
    };
    let (zeroth, later) = trace.split_at(BLOCK);
    let (mut zeroth, mut later) = (zeroth.to_vec(), later.to_vec());
    let mut run = Run::default();
    run.block(&zeroth).unwrap();
    let mut words = run.to_words().to_vec();
    words.splice(3..13, sources::sound(draw));
    words[13..].fill_with(|| draw.astray(0, MOST_ARRIVALS));
    match draw.below(16) {
        0 => drop(words.splice(3..13, sources::any(draw))),
        1 => words[draw.index(3)] = draw.any_size(),
        2 => words[0] = draw.below(4),
        3 => words[2] = words[2].wrapping_add(draw.of(&[1, 1 << 32, u64::MAX])),
        4 => words[1] = draw.edge(0, 503),
        5 => blocks::flip(draw, &mut zeroth),
        6 => blocks::damage_contents(draw, &mut zeroth),
        7 => zeroth.resize(draw.of(&[0, 511, 513]), 0),
        8 => later = blocks::any(draw),
        9 => later = traces::damaged(draw, later),
        10 => words.resize(draw.index(18), 0),
        _ => {}
    }
    let row = Run::from_words(&words, &zeroth).map_or(80, |run| run.row().len());
    block(compare, &words, &zeroth, &later, &vec![draw.u64() as u8; draw.room(row)]);
}

/// The calls over a trace give its table.
fn whole(compare: &Compare, trace: &[u8]) {
    let blocks = model::trace::blocks(trace);
    let mut told = HEAD.to_vec();
    let (mut answer, mut run) = start(compare, blocks[0], &[0; WORDS]);
    let mut index = 0;
    while answer == 0 && index + 1 < blocks.len() {
        index += 1;
        let (length, next, out) = block(compare, &run, blocks[0], blocks[index], &[0; MOST]);
        told.extend(&out[..length.max(0) as usize]);
        (run, answer) = (next, (-length).max(0));
    }
    if answer != 0 {
        told.extend(refused_line(answer as u8, index as u64));
    }
    compare.hold(told == table(trace), &format!("a trace of {} bytes has another table", trace.len()));
}

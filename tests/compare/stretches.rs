//! Document 02, L7, by hand: a trace that arrives bit by bit, the order of the refusals, and states with something wrong in each place. The answers stand here
//! as numbers; they hold the library and the model.
use crate::compare::Compare;
use crate::feeds::{parts, Upload};
use model::trace::*;

/// The rows of the trace's two arrivals blocks.
const ROWS: [&[u8]; 2] = [b"ward 3,7,9,1,0,0,0,0,0,0,0\r\n", b"ward 3,7,10,1,0,1,0,0,0,0,0\r\n"];

/// The words of the run after the label and after the first row.
const RUNS: [[u64; 15]; 2] = [[1, 6, 7, 0, 0, 0, 0, 0, 0, 0, 0, 0, 0, 0, 0], [1, 6, 7, 9, 9, 0, 0, 1, 0, 0, 1, 0, 0, 0, 0]];

/// The blocks of the most bytes that are taken, 2^48.
const MOST_BLOCKS: u64 = 1 << 39;

/// A label and two arrivals blocks, each of one record.
fn trace() -> Vec<u8> {
    let records = [Record { time: 20, wire: 9, mark: 2 }, Record { time: 40, wire: 10, mark: 3 }];
    let [first, second] = records.map(|record| arrivals_block(Form::One, &[record], 7).unwrap());
    [label_block(Form::One, b"ward 3", 7).unwrap(), first, second].concat()
}

/// The state with a run, blocks taken, a refusal, block 0 and what is kept of the next block.
fn state(run: [u64; 15], blocks: u64, refusal: u64, zeroth: &[u8], part: &[u8]) -> Upload {
    let mut upload = Upload::fresh();
    upload.words[..15].copy_from_slice(&run);
    upload.words[15..].copy_from_slice(&[blocks, part.len() as u64, refusal]);
    upload.kept[..zeroth.len()].copy_from_slice(zeroth);
    upload.kept[BLOCK..BLOCK + part.len()].copy_from_slice(part);
    upload
}

pub fn examples(compare: &Compare) {
    stretches(compare);
    faulty(compare);
    order(compare);
    let trace = trace();
    let (zeroth, part) = (&trace[..BLOCK], &trace[BLOCK..BLOCK + 100]);
    unused(compare, Upload::fresh());
    unused(compare, state([0; 15], 0, 13, &[], &[]));
    unused(compare, state([0; 15], 0, 0, &[], part));
    unused(compare, state(RUNS[1], 2, 0, zeroth, part));
    unused(compare, state(RUNS[0], 1, 1, zeroth, part));
    counts(compare, zeroth);
}

/// Calls in turn: each stretch, the room, the answer, and the state after it.
fn stretches(compare: &Compare) {
    let trace = trace();
    let (zeroth, cut) = (&trace[..BLOCK], 2 * BLOCK + 11);
    let size = ROWS[0].len() as i64;
    let calls: [(&[u8], usize, i64, Upload); 7] = [
        (&[], 0, 0, Upload::fresh()),
        (&trace[..1], 0, 0, state([0; 15], 0, 0, &[], &trace[..1])),
        (&trace[1..BLOCK], 0, 0, state(RUNS[0], 1, 0, zeroth, &[])),
        (&trace[BLOCK..cut], 0, -(256 * size + 12), state(RUNS[0], 1, 0, zeroth, &[])),
        (&trace[BLOCK..cut], ROWS[0].len() - 1, -(256 * size + 12), state(RUNS[0], 1, 0, zeroth, &[])),
        (&trace[BLOCK..cut], ROWS[0].len(), size, state(RUNS[1], 2, 0, zeroth, &trace[2 * BLOCK..cut])),
        (&[], 0, 0, state(RUNS[1], 2, 0, zeroth, &trace[2 * BLOCK..cut])),
    ];
    let mut upload = Upload::fresh();
    for (stretch, room, wanted, after) in calls {
        let (answer, out) = upload.feed(compare, stretch, &vec![0xA5; room]);
        let written = if answer > 0 { ROWS[0].to_vec() } else { vec![0xA5; room] };
        compare.hold(answer == wanted && upload == after && out == written, &format!("a stretch of {} bytes: {answer}", stretch.len()));
    }
    let (answer, out) = upload.feed(compare, &trace[cut..], &[0xA5; 80]);
    let (row, rest) = out.split_at(ROWS[1].len());
    compare.hold(answer as usize == row.len() && row == ROWS[1] && rest.iter().all(|&byte| byte == 0xA5), "the second row");
    compare.hold(upload.close(compare) == 0, "a close between two blocks");
}

/// A block with a byte changed after a sound one, and one after it: the row before it, and what came after is not kept. A refused label leaves all unused.
fn faulty(compare: &Compare) {
    let mut trace = trace();
    trace[2 * BLOCK + 9] ^= 1;
    trace.extend(trace[BLOCK..BLOCK + 30].to_vec());
    let mut upload = Upload::fresh();
    let (answer, out) = upload.feed(compare, &trace, &[0xA5; 80]);
    compare.hold(parts(answer) == (13, ROWS[0].len()) && out.starts_with(ROWS[0]), "the row before a faulty block");
    compare.hold(upload == state(RUNS[1], 2, 13, &trace[..BLOCK], &[]), "the state after a faulty block");
    let again = (upload.feed(compare, &trace, &[]).0, upload.close(compare));
    compare.hold(again == (-13, 13), "a refusal is repeated with length 0");
    let mut upload = Upload::fresh();
    let answer = upload.feed(compare, &trace[BLOCK..], &[]).0;
    compare.hold(answer == -14 && upload == state([0; 15], 0, 14, &[], &[]), "arrivals in the place of the label");
    let mut upload = state(RUNS[0], 1, 0, &trace[..BLOCK], &trace[BLOCK..BLOCK + 30]);
    let answer = upload.close(compare);
    compare.hold(answer == 1 && upload == state(RUNS[0], 1, 1, &trace[..BLOCK], &trace[BLOCK..BLOCK + 30]), "a partial block at the end");
    let mut upload = Upload::fresh();
    compare.hold(upload.close(compare) == 1 && upload == state([0; 15], 0, 1, &[], &[]), "an empty trace");
}

/// 9, the kept refusal, 10, 12, the trace's own.
fn order(compare: &Compare) {
    let trace = trace();
    let (zeroth, last) = (&trace[..BLOCK], &trace[2 * BLOCK..]);
    let mut wrong = trace[BLOCK..].to_vec();
    wrong[BLOCK + 9] ^= 1;
    let twelve = |row: usize| -(256 * ROWS[row].len() as i64 + 12);
    let full = state(RUNS[1], MOST_BLOCKS - 1, 0, zeroth, &last[..511]);
    let refused = |refusal| state(RUNS[1], MOST_BLOCKS - 1, refusal, zeroth, &last[..511]);
    let calls: [(&str, Upload, &[u8], usize, i64); 11] = [
        ("the last byte of 2^48", full.clone(), &last[511..], 80, ROWS[1].len() as i64),
        ("and no room", full.clone(), &last[511..], 0, twelve(1)),
        ("one byte more", full.clone(), &[last[511], 0], 80, -10),
        ("10 before 12", full.clone(), &[last[511], 0], 0, -10),
        ("10 before the trace's own", full.clone(), &[!last[511], 0], 0, -10),
        ("the kept refusal before 10", refused(14), &[last[511], 0], 0, -14),
        ("1 is kept too", refused(1), &[last[511], 0], 0, -1),
        ("9 before the kept refusal", state(RUNS[1], MOST_BLOCKS, 13, zeroth, &last[..1]), &[], 0, -9),
        ("at 2^48 nothing", state(RUNS[1], MOST_BLOCKS, 0, zeroth, &[]), &[], 0, 0),
        ("at 2^48 a byte", state(RUNS[1], MOST_BLOCKS, 0, zeroth, &[]), &[0], 0, -10),
        ("12 before the trace's own", state(RUNS[0], 1, 0, zeroth, &[]), &wrong, ROWS[0].len() - 1, twelve(0)),
    ];
    for (name, mut upload, stretch, room, wanted) in calls {
        let answer = upload.feed(compare, stretch, &vec![0xA5; room]).0;
        compare.hold(answer == wanted, &format!("feeds, {name}: {answer}"));
    }
}

/// Whether both functions answer 9.
fn judged(compare: &Compare, mut upload: Upload, malformed: bool, what: &str) {
    let found = [upload.feed(compare, &[], &[]).0 == -9, upload.close(compare) == 9];
    compare.hold(found == [malformed; 2], what);
}

/// A state with each lent byte changed, and, while no block is taken, each word of the run: it is malformed but for the bytes that are kept.
fn unused(compare: &Compare, sound: Upload) {
    let (blocks, held) = (sound.words[15], BLOCK..BLOCK + sound.words[16] as usize);
    for place in 0..2 * BLOCK {
        let mut upload = sound.clone();
        upload.kept[place] ^= 1 << (place % 8);
        judged(compare, upload, !held.contains(&place), &format!("lent byte {place} changed, {blocks} blocks taken"));
    }
    for word in 0..if blocks == 0 { 15 } else { 3 } {
        let mut upload = sound.clone();
        upload.words[word] += 1;
        judged(compare, upload, true, &format!("word {word} changed, {blocks} blocks taken"));
    }
    for (words, kept) in [(17, 1_024), (19, 1_024), (0, 1_024), (18, 1_023), (18, 0), (18, 1_024), (18, 1_025)] {
        let mut upload = sound.clone();
        upload.words.resize(words, 0);
        upload.kept.resize(kept, 0xA5);
        judged(compare, upload, words != 18 || kept < 1_024, &format!("{words} words and {kept} bytes"));
    }
}

/// The counts and the refusal of a state, at their limits and past them.
fn counts(compare: &Compare, zeroth: &[u8]) {
    let words: [(usize, &[u64], &[u64]); 5] = [
        (13, &[1 << 48], &[(1 << 48) + 1, u64::MAX]),
        (14, &[1 << 48], &[(1 << 48) + 1, u64::MAX]),
        (15, &[1, MOST_BLOCKS], &[0, MOST_BLOCKS + 1, 1 << 55, (1 << 55) + 1, u64::MAX]),
        (16, &[0, 1, 511], &[512, 513, 1 << 32, u64::MAX]),
        (17, &[0, 1, 13, 14], &[2, 7, 9, 10, 12, 15, 17, 19, 256, 257, 269, (1 << 32) + 1, u64::MAX]),
    ];
    for (word, sound, malformed) in words {
        for (value, wanted) in sound.iter().map(|value| (value, false)).chain(malformed.iter().map(|value| (value, true))) {
            let mut upload = state(RUNS[1], 2, 0, zeroth, &[]);
            upload.words[word] = *value;
            judged(compare, upload, wanted, &format!("word {word} of a feed is {value}"));
        }
    }
}

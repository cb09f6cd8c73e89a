//! Document 02, L11: damaged traces, and what is proved of what is left of them.
use crate::feed::Feed;
use draw::{blocks, traces, Draw};
use model::trace::*;
use std::fs::read as file;

/// ecntable, ecnforms and ecnsalvage.
pub struct Salvage<'a>(pub [&'a Feed; 3]);

/// So many blocks are read at a time after block 0.
const PIECE: usize = 1_024;

impl Salvage<'_> {
    /// The damaged sample, and what is left of it beside it.
    pub fn sample(&self, folder: &str) {
        let [trace, left] = ["damaged", "salvaged"].map(|name| file(format!("{folder}/{name}.trace")).expect("a sample"));
        self.0[2].expect(&trace, &(left.clone(), b"refused 13 block 5\r\nrefused 1 block 9\r\n".to_vec()));
        self.0[2].expect(&left, &(left.clone(), Vec::new()));
    }

    /// A sound trace of each form, and the first sample, with each single byte of each block changed in turn: its block is listed with 13 and left out, and no
    /// other; of a label nothing is left. Gives how many.
    pub fn single_bytes(&self, draw: &Draw, folder: &str) -> u64 {
        let mut traces: Vec<Vec<u8>> = FORMS.iter().map(|&form| self.sound(draw, form, 2)).collect();
        traces.push(file(format!("{folder}/c1.trace")).expect("a sample"));
        for trace in &traces {
            for at in 0..trace.len() {
                let (mut changed, index) = (trace.clone(), at / BLOCK);
                changed[at] ^= draw.within(1, 255) as u8;
                let out = if index == 0 { Vec::new() } else { without(trace, index) };
                self.0[2].expect(&changed, &(out, refused_line(13, index as u64)));
            }
        }
        traces.iter().map(|trace| trace.len() as u64).sum()
    }

    fn sound(&self, draw: &Draw, form: Form, count: usize) -> Vec<u8> {
        let mut trace = label_block(form, &blocks::old_label(draw), 77).unwrap();
        (0..count).for_each(|_| trace.extend(arrivals_block(form, &blocks::records(draw, form, Form::One.times()), 77).unwrap()));
        trace
    }

    /// Blocks exchanged, doubled, dropped, zeroed and cut, and two traces joined: what is left stands here. Gives how many.
    pub fn whole_blocks(&self, draw: &Draw) -> u64 {
        let mut count = 0;
        for form in FORMS {
            for _ in 0..60 {
                let blocks = draw.within(2, 9) as usize;
                let trace = self.sound(draw, form, blocks);
                let (at, other) = (1 + draw.index(blocks), 1 + draw.index(blocks));
                for (given, out, told) in changes(draw, &trace, at, other) {
                    self.0[2].expect(&given, &(out, told.into_bytes()));
                    self.left(&given);
                    count += 1;
                }
            }
        }
        count
    }

    /// Traces with many faults, and joined ones. Gives how many.
    pub fn battered(&self, draw: &Draw) -> u64 {
        for _ in 0..500 {
            self.left(&traces::battered(draw, traces::sound(draw, 8)));
            self.left(&[traces::sound(draw, 4), traces::with_old_label(draw, 4)].concat());
            self.0[2].file(&traces::battered(draw, traces::with_old_label(draw, 12)));
            self.0[2].pipe(draw, &traces::battered(draw, traces::sound(draw, 60)));
        }
        2_000
    }

    /// Traces with damaged blocks around the ends of pieces: one, the two and the three next to an end, a stretch over it, every second one, and all. Gives how
    /// many.
    pub fn long(&self, draw: &Draw) -> u64 {
        let mut count = 0;
        for length in [PIECE, PIECE + 1, PIECE + 2, 2 * PIECE, 2 * PIECE + 1, 2 * PIECE + 40] {
            let whole = self.sound(draw, draw.of(&FORMS), length - 1);
            let ends: Vec<usize> = (1..length).filter(|&block| (block + 1) % PIECE <= 2).collect();
            let mut sets: Vec<Vec<usize>> = ends.iter().map(|&block| vec![block]).collect();
            sets.extend([ends, (PIECE - 7..PIECE + 9).collect(), (1..length).step_by(2).collect(), (1..length).collect()]);
            for set in sets {
                let mut trace = whole.clone();
                let inside = set.into_iter().filter(|&block| block < length);
                inside.for_each(|block| blocks::flip(draw, &mut trace[BLOCK * block..BLOCK * (block + 1)]));
                self.left(&trace);
                trace.truncate(trace.len() - draw.index(BLOCK));
                self.0[2].pipe(draw, &trace);
                count += 2;
            }
        }
        count
    }

    /// What the three programs say of a trace: each block is copied or listed and never both, in order; the first that is listed is the one that ecntable
    /// refuses; a trace that it accepts comes out as it is; it accepts what is left, ecnforms refuses that with nothing but 17, and nothing more is left out
    /// of it.
    fn left(&self, trace: &[u8]) {
        let [ecntable, ecnforms, ecnsalvage] = &self.0;
        let (out, told) = ecnsalvage.file(trace);
        let listed = numbers(&told);
        let table = ecntable.file(trace).0;
        let refused = refused_at_end(&table);
        ecntable.hold(listed.first() == refused.as_ref(), trace, "the first block that is listed is the one that ecntable refuses");
        if out.is_empty() {
            ecnsalvage.hold(listed.len() == 1 && listed[0].1 == 0, trace, "after a wrong label nothing is copied or listed");
            return;
        }
        let blocks = blocks(trace);
        let rising = listed.windows(2).all(|pair| pair[0].1 < pair[1].1) && listed.iter().all(|&(_, index)| (1..blocks.len()).contains(&index));
        let is_copied = |index: &usize| !listed.iter().any(|(_, other)| other == index);
        let copied: Vec<u8> = (0..blocks.len()).filter(is_copied).flat_map(|index| blocks[index]).copied().collect();
        ecnsalvage.hold(rising && out == copied && out.len() / BLOCK + listed.len() == blocks.len(), trace, "each block is copied or listed");
        ecnsalvage.hold(refused.is_some() || out == trace, trace, "a trace that ecntable accepts comes out as it is");
        ecntable.hold(refused_at_end(&ecntable.file(&out).0).is_none(), trace, "ecntable accepts what is left");
        ecnsalvage.hold(ecnsalvage.file(&out) == (out.clone(), Vec::new()), trace, "nothing more is left out");
        let refused = numbers(&ecnforms.file(&out).1);
        ecnforms.hold(refused.iter().all(|&(number, _)| number == 17), trace, "what is left goes to the other form");
    }
}

/// A trace without one of its blocks.
fn without(trace: &[u8], index: usize) -> Vec<u8> {
    [&trace[..BLOCK * index], &trace[BLOCK * (index + 1)..]].concat()
}

/// Each change of a sound trace, with both outputs.
fn changes(draw: &Draw, trace: &[u8], at: usize, other: usize) -> Vec<(Vec<u8>, Vec<u8>, String)> {
    let block = |index: usize| &trace[BLOCK * index..BLOCK * (index + 1)];
    let after = |index: usize, more: &[u8]| [&trace[..BLOCK * (index + 1)], more, &trace[BLOCK * (index + 1)..]].concat();
    let placed = |index: usize, new: &[u8]| [&trace[..BLOCK * index], new, &trace[BLOCK * (index + 1)..]].concat();
    let mut exchanged = placed(at, block(other));
    exchanged[BLOCK * other..BLOCK * (other + 1)].copy_from_slice(block(at));
    let first = [block(at), &trace[BLOCK..BLOCK * at], block(0), &trace[BLOCK * (at + 1)..]].concat();
    let cut = draw.within(1, BLOCK as u64 - 1) as usize;
    let (sound, wrong) = (String::new(), |number: u8, index: usize| format!("refused {number} block {index}\r\n"));
    let mut joined = trace.to_vec();
    joined.extend(trace);
    vec![
        (exchanged.clone(), exchanged, sound.clone()),
        (first, Vec::new(), wrong(14, 0)),
        (after(at, block(other)), after(at, block(other)), sound.clone()),
        (after(at, block(0)), trace.to_vec(), wrong(14, at + 1)),
        (without(trace, at), without(trace, at), sound),
        (without(trace, 0), Vec::new(), wrong(14, 0)),
        (placed(at, &[0; BLOCK]), without(trace, at), wrong(13, at)),
        (placed(0, &[0; BLOCK]), Vec::new(), wrong(13, 0)),
        (trace[..BLOCK * at + cut].to_vec(), trace[..BLOCK * at].to_vec(), wrong(1, at)),
        (trace[..cut].to_vec(), Vec::new(), wrong(1, 0)),
        (joined, [trace, &trace[BLOCK..]].concat(), wrong(14, trace.len() / BLOCK)),
    ]
}

/// The refusals and blocks of the lines `refused N block I`.
fn numbers(told: &[u8]) -> Vec<(u64, usize)> {
    String::from_utf8(told.to_vec()).expect("lines").split_terminator("\r\n").map(|line| number(line).expect("a refused line")).collect()
}

fn number(line: &str) -> Option<(u64, usize)> {
    let (number, block) = line.strip_prefix("refused ")?.split_once(" block ")?;
    Some((number.parse().ok()?, block.parse().ok()?))
}

/// The refused line that a table ends with.
fn refused_at_end(table: &[u8]) -> Option<(u64, usize)> {
    let text = String::from_utf8_lossy(table);
    number(text.strip_suffix("\r\n")?.rsplit("\r\n").next()?)
}

//! Document 02, L11: flasknib_read_own on blocks of every kind, and whole traces by it, whose answers are the blocks that ecnsalvage copies.
use crate::blocks::{number, read};
use crate::compare::Compare;
use crate::lent::Lent;
use draw::{blocks, traces, Draw};
use model::salvage::left;
use model::trace::*;

/// The SSRC of the blocks by hand.
const SSRC: u32 = 7;

/// A form, an SSRC, and the answer to an arrivals block of form 1 and SSRC 7, whole, cut and with a byte changed: 10, then 1, 13, 14.
const ANSWERS: [(u8, u32, [i64; 3]); 7] = [
    (1, SSRC, [0, 1, 13]),
    (1, SSRC + 1, [14, 1, 13]),
    (1, SSRC + 256, [14, 1, 13]),
    (2, SSRC, [14, 1, 13]),
    (0, SSRC, [10, 10, 10]),
    (3, SSRC, [10, 10, 10]),
    (255, 0, [10, 10, 10]),
];

pub fn examples(compare: &Compare) {
    let whole = arrivals_block(Form::One, &[Record { time: 20, wire: 9, mark: 2 }], SSRC).unwrap();
    let mut changed = whole.clone();
    changed[9] ^= 1;
    for (form, ssrc, wanted) in ANSWERS {
        for (block, wanted) in [&whole[..], &whole[..BLOCK - 1], &changed].iter().zip(wanted) {
            compare.hold(own(compare, form, ssrc, block) == wanted, &format!("a block for form {form} and SSRC {ssrc}"));
        }
    }
    for (form, answer) in [(1, 14), (2, 14), (3, 10)] {
        let label = label_block(Form::One, b"ward 3", SSRC).unwrap();
        compare.hold(own(compare, form, SSRC, &label) == answer, "a label block has no arrivals");
    }
}

pub fn calls(compare: &Compare, draw: &Draw) {
    for _ in 0..60_000 {
        let block = blocks::any(draw);
        let (form, ssrc) = match read_of(&block) {
            Some((form, ssrc)) if !draw.one_in(4) => (form, ssrc),
            _ => (draw.of(&FORMS), draw.u64() as u32),
        };
        let ssrc = if draw.one_in(8) { ssrc ^ 1 << draw.below(32) } else { ssrc };
        own(compare, number(draw, if draw.one_in(8) { form.other() } else { form }), ssrc, &block);
    }
    for _ in 0..1_500 {
        whole(compare, &traces::battered(draw, traces::sound(draw, 6)));
    }
}

/// The form and the SSRC that the bytes of a block name, if there are so many.
fn read_of(block: &[u8]) -> Option<(Form, u32)> {
    let form = if *block.get(1)? < 3 { Form::One } else { Form::Two };
    Some((form, u32::from_be_bytes(block.get(4..8)?.try_into().ok()?)))
}

/// Block 0 by flasknib_read_block, each later one by flasknib_read_own.
fn whole(compare: &Compare, trace: &[u8]) {
    let blocks = model::trace::blocks(trace);
    let (mut copied, mut listed) = (Vec::new(), Vec::new());
    let (answer, words) = read(compare, blocks[0], &[0; 3]);
    match if answer == 0 && words[0] % 2 == 0 { 14 } else { answer } {
        0 => {
            copied.push(0);
            for (index, block) in blocks.iter().enumerate().skip(1) {
                match own(compare, words[0] as u8 / 2 + 1, words[2] as u32, block) {
                    0 => copied.push(index),
                    refusal => listed.push((refusal, index)),
                }
            }
        }
        refusal => listed.push((refusal, 0)),
    }
    let left = left(trace);
    let same = listed == left.listed.iter().map(|&(refusal, index)| (i64::from(refusal.number()), index)).collect::<Vec<_>>();
    compare.hold(same && copied == left.copied, &format!("what is left of a trace of {} bytes", trace.len()));
}

fn own(compare: &Compare, form: u8, ssrc: u32, block: &[u8]) -> i64 {
    compare.call("flasknib_read_own", &mut Lent::new(block), |calls, block| i64::from(calls.read_own(form, ssrc, block.part())))
}

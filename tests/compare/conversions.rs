//! flasknib_forms_start, flasknib_forms_block and flasknib_forms_close: single calls on conversions of every kind, and whole traces, whose answers are the
//! trace in the other form.
use crate::compare::Compare;
use crate::lent::Lent;
use draw::{blocks, traces, Draw};
use model::forms::{converted, Conversion, WORDS};
use model::trace::{arrivals_block, refused_line, Record, BLOCK, BODY, FORMS};

pub fn calls(compare: &Compare, draw: &Draw) {
    for _ in 0..20_000 {
        let words = if draw.one_in(12) { draw.index(6) } else { WORDS };
        let room = draw.room(BLOCK);
        start(compare, &blocks::any(draw), &vec![draw.u64(); words], &draw.bytes(room));
        single(compare, draw);
    }
    for _ in 0..1_500 {
        let trace = traces::sound(draw, 6);
        whole(compare, draw, &if draw.one_in(2) { traces::damaged(draw, trace) } else { trace });
    }
}

/// Gives the answer, and the words of `forms` and the bytes of `out` after the call.
fn start(compare: &Compare, zeroth: &[u8], forms: &[u64], out: &[u8]) -> (i64, Vec<u64>, Vec<u8>) {
    let mut lent = (Lent::new(zeroth), Lent::new(forms), Lent::new(out));
    let answer = compare.call("flasknib_forms_start", &mut lent, |calls, (zeroth, forms, out)| {
        calls.forms_start(zeroth.part(), forms.part_mut(), out.part_mut())
    });
    (answer, lent.1.part().to_vec(), lent.2.part().to_vec())
}

/// Gives the answer, and the words of `forms` and the bytes of `part` and of `out` after the call.
fn block(compare: &Compare, forms: &[u64], part: &[u8], block: &[u8], out: &[u8]) -> (i64, Vec<u64>, Vec<u8>, Vec<u8>) {
    let mut lent = (Lent::new(forms), Lent::new(part), Lent::new(block), Lent::new(out));
    let answer = compare.call("flasknib_forms_block", &mut lent, |calls, (forms, part, block, out)| {
        calls.forms_block(forms.part_mut(), part.part_mut(), block.part(), out.part_mut())
    });
    (answer, lent.0.part().to_vec(), lent.1.part().to_vec(), lent.3.part().to_vec())
}

/// Gives the answer and the bytes of `out` after the call.
fn close(compare: &Compare, forms: &[u64], part: &[u8], out: &[u8]) -> (i64, Vec<u8>) {
    let mut lent = (Lent::new(forms), Lent::new(part), Lent::new(out));
    let answer = compare.call("flasknib_forms_close", &mut lent, |calls, (forms, part, out)| {
        calls.forms_close(forms.part(), part.part(), out.part_mut())
    });
    (answer, lent.2.part().to_vec())
}

/// Any records that a conversion may hold.
fn held(draw: &Draw, conversion: &Conversion) -> Vec<Record> {
    let other = conversion.form.other();
    let mut records = blocks::records(draw, other, other.times());
    records.truncate(draw.edge(0, other.most_records() as u64 - 1) as usize);
    records
}

/// A later block and the end of a conversion; now and then its words or the part are damaged, or the block is of another trace.
fn single(compare: &Compare, draw: &Draw) {
    let (form, ssrc) = (draw.of(&FORMS), draw.u64() as u32);
    let mut conversion = Conversion { form, ssrc, held: Vec::new() };
    conversion.held = held(draw, &conversion);
    let mut words = conversion.to_words().to_vec();
    let mut part = draw.bytes(BODY + draw.index(3));
    conversion.keep(&mut part);
    let mut later = arrivals_block(form, &blocks::records(draw, form, traces::times(draw, form)), ssrc).unwrap();
    match draw.below(14) {
        0 => words[draw.index(WORDS)] = draw.any_size(),
        1 => words[0] = draw.below(4),
        2 => words[1] = words[1].wrapping_add(draw.of(&[1, 1 << 32, u64::MAX])),
        3 => words[2] = draw.edge(0, 63),
        4 => words.resize(draw.index(6), 0),
        5 => part.truncate(draw.edge(0, BODY as u64) as usize),
        6 => blocks::flip(draw, &mut part),
        7 => later = blocks::any(draw),
        8 => later = traces::damaged(draw, later),
        _ => {}
    }
    let size = draw.of(&[BLOCK, 2 * BLOCK]);
    block(compare, &words, &part, &later, &vec![draw.u64() as u8; draw.room(size)]);
    close(compare, &words, &part, &vec![draw.u64() as u8; draw.room(BLOCK)]);
}

/// The calls over a trace give it in the other form, and the refused line.
fn whole(compare: &Compare, draw: &Draw, trace: &[u8]) {
    let blocks = model::trace::blocks(trace);
    let (mut told, mut index) = (Vec::new(), 0);
    let (mut answer, mut forms, first) = start(compare, blocks[0], &[0; WORDS], &[0; BLOCK]);
    if answer > 0 {
        told.extend(first);
        let mut part = draw.bytes(BODY);
        while answer >= 0 && index + 1 < blocks.len() {
            index += 1;
            let (length, next, kept, out) = block(compare, &forms, &part, blocks[index], &[0; 2 * BLOCK]);
            told.extend(&out[..length.max(0) as usize]);
            (answer, forms, part) = (length, next, kept);
        }
        let (length, last) = close(compare, &forms, &part, &[0; BLOCK]);
        told.extend(&last[..length as usize]);
    }
    let line = if answer < 0 { refused_line(-answer as u8, index as u64) } else { Vec::new() };
    compare.hold((told, line) == converted(trace), &format!("a trace of {} bytes has another form", trace.len()));
}

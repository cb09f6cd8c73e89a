//! flasknib_read_block, flasknib_write_label and flasknib_write_arrivals.
use crate::compare::Compare;
use crate::lent::Lent;
use draw::{blocks, Draw};
use model::trace::{Form, BLOCK, FORMS};

pub fn calls(compare: &Compare, draw: &Draw) {
    for _ in 0..120_000 {
        read(compare, &blocks::any(draw), &vec![draw.u64(); draw.room(3)]);
    }
    for _ in 0..40_000 {
        write_any_label(compare, draw);
        write_any_arrivals(compare, draw);
        write_any_records(compare, draw);
    }
}

/// Gives the answer and the words of `found` after the call.
pub fn read(compare: &Compare, block: &[u8], found: &[u64]) -> (i64, Vec<u64>) {
    let mut lent = (Lent::new(block), Lent::new(found));
    let answer = compare.call("flasknib_read_block", &mut lent, |calls, (block, found)| {
        i64::from(calls.read_block(block.part(), found.part_mut()))
    });
    (answer, lent.1.part().to_vec())
}

/// What was written is also read.
fn read_written(compare: &Compare, answer: i64, out: &[u8]) {
    if answer == BLOCK as i64 {
        let (answer, _) = read(compare, &out[..BLOCK], &[0; 3]);
        compare.hold(answer == 0, "a written block is refused by the reader");
    }
}

/// Mostly the number of the form; now and then another.
pub fn number(draw: &Draw, form: Form) -> u8 {
    match draw.below(30) {
        0 => draw.of(&[0, 3, 4, 128, 255]),
        1 => draw.u64() as u8,
        _ => form as u8 + 1,
    }
}

fn write_any_label(compare: &Compare, draw: &Draw) {
    let (form, label, ssrc) = (number(draw, draw.of(&FORMS)), blocks::any_label(draw), draw.u64() as u32);
    for room in draw.rooms(BLOCK) {
        let (answer, out) = write_label(compare, form, &label, ssrc, &vec![draw.u64() as u8; room]);
        read_written(compare, answer, &out);
    }
}

/// Gives the answer and the bytes of `out` after the call.
pub fn write_label(compare: &Compare, form: u8, label: &[u8], ssrc: u32, out: &[u8]) -> (i64, Vec<u8>) {
    let mut lent = (Lent::new(label), Lent::new(out));
    let answer = compare.call("flasknib_write_label", &mut lent, |calls, (label, out)| {
        calls.write_label(form, label.part(), ssrc, out.part_mut())
    });
    (answer, lent.1.part().to_vec())
}

/// The records of a block of its form; now and then of the other form, none or too many, a time too long, a mark above 3, or lists of
/// different lengths.
fn write_any_arrivals(compare: &Compare, draw: &Draw) {
    let form = draw.of(&FORMS);
    let most = if draw.one_in(8) { form.other().most_records() } else { form.most_records() };
    let count = draw.astray(1, most as u64).min(70) as usize;
    let mut times: Vec<u64> = (0..count).map(|_| blocks::time(draw, form.times())).collect();
    let mut numbers: Vec<u16> = (0..count).map(|_| draw.u64() as u16).collect();
    let mut marks: Vec<u8> = (0..count).map(|_| draw.below(4) as u8).collect();
    match draw.below(20) {
        0 if count > 0 => marks[draw.index(count)] = draw.edge(4, 255) as u8,
        1..=4 if count > 0 => times[draw.index(count)] = any_time(draw),
        5 => times.push(0),
        6 => numbers.push(0),
        7 => marks.push(0),
        8 => drop(times.pop()),
        _ => {}
    }
    let (number, ssrc) = (number(draw, form), draw.u64() as u32);
    for room in draw.rooms(BLOCK) {
        let (answer, out) = write_arrivals(compare, number, (&times, &numbers, &marks), ssrc, &vec![draw.u64() as u8; room]);
        read_written(compare, answer, &out);
    }
}

/// The bytes of a block's records; now and then of the other form, cut, none or too many, or with a byte changed.
fn write_any_records(compare: &Compare, draw: &Draw) {
    let form = draw.of(&FORMS);
    let count = draw.astray(1, form.most_records() as u64).min(70) as usize;
    let mut bytes = Vec::new();
    for _ in 0..count {
        bytes.extend(draw.bytes(form.width() - 2));
        bytes.extend([draw.below(4) as u8, 0]);
    }
    match draw.below(12) {
        0 => bytes.truncate(draw.index(bytes.len() + 1)),
        1 if count > 0 => {
            let place = draw.index(bytes.len());
            bytes[place] = draw.of(&[0, 1, 3, 4, 255]);
        }
        _ => {}
    }
    let (number, ssrc) = (number(draw, form), draw.u64() as u32);
    for room in draw.rooms(BLOCK) {
        let mut lent = (Lent::new(&bytes), Lent::new(&vec![draw.u64() as u8; room]));
        let answer = compare.call("flasknib_write_records", &mut lent, |calls, (records, out)| {
            calls.write_records(number, records.part(), ssrc, out.part_mut())
        });
        read_written(compare, answer, lent.1.part());
    }
}

/// A time around an end of 32, 48 or 64 bits, or of any size.
fn any_time(draw: &Draw) -> u64 {
    let near = draw.below(3).wrapping_sub(1);
    match draw.below(4) {
        0 => (1_u64 << 32).wrapping_add(near),
        1 => (1_u64 << 48).wrapping_add(near),
        2 => u64::MAX - draw.below(2),
        _ => draw.any_size(),
    }
}

/// Times, wire numbers and marks.
pub type Lists<'a> = (&'a [u64], &'a [u16], &'a [u8]);

/// Gives the answer and the bytes of `out` after the call.
pub fn write_arrivals(compare: &Compare, form: u8, (times, numbers, marks): Lists, ssrc: u32, out: &[u8]) -> (i64, Vec<u8>) {
    let mut lent = (Lent::new(times), Lent::new(numbers), Lent::new(marks), Lent::new(out));
    let answer = compare.call("flasknib_write_arrivals", &mut lent, |calls, (times, numbers, marks, out)| {
        calls.write_arrivals(form, times.part(), numbers.part(), marks.part(), ssrc, out.part_mut())
    });
    (answer, lent.3.part().to_vec())
}

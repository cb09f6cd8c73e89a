//! Whole traces of both forms, sound and damaged.
use crate::{arrivals, blocks, tables, Draw};
use model::trace::*;

/// The times of a trace are below this: half of those of form 2 fit form 1 too.
pub fn times(draw: &Draw, form: Form) -> u64 {
    draw.of(&[Form::One, form]).times()
}

/// The blocks have numbers of their own, or those of one sender, which jumps and begins again within them and over their ends.
pub fn sound(draw: &Draw, most_blocks: u64) -> Vec<u8> {
    let (form, ssrc) = (draw.of(&FORMS), draw.u64() as u32);
    let below = times(draw, form);
    let mut trace = label_block(form, &blocks::label(draw), ssrc).unwrap();
    let count = draw.below(most_blocks + 1);
    if draw.one_in(2) {
        (0..count).for_each(|_| trace.extend(arrivals_block(form, &blocks::records(draw, form, below), ssrc).unwrap()));
        return trace;
    }
    let wires = arrivals::wires(draw, draw.u64() as u16, form.most_records() * count as usize);
    let mut rest = &wires[..];
    for _ in 0..count {
        let (block, behind) = rest.split_at(blocks::count(draw, form));
        trace.extend(arrivals_block(form, &blocks::with_times(draw, below, block), ssrc).unwrap());
        rest = behind;
    }
    trace
}

/// A sound trace whose label has retired bytes.
pub fn with_old_label(draw: &Draw, most_blocks: u64) -> Vec<u8> {
    let mut trace = sound(draw, most_blocks);
    let Label { form, ssrc, .. } = zeroth(&trace[..BLOCK]).unwrap();
    trace[..BLOCK].copy_from_slice(&label_block(form, &blocks::old_label(draw), ssrc).unwrap());
    trace
}

/// A trace of one form whose arrivals blocks are of 0 to 18 sources, each with the numbers of a sender of its own.
pub fn streams(draw: &Draw, most_blocks: u64) -> Vec<u8> {
    let (form, below) = (draw.of(&FORMS), Form::One.times());
    let ssrcs: Vec<u32> = (0..draw.edge(0, 18)).map(|_| tables::ssrc(draw)).collect();
    let mut numbers: Vec<Vec<u16>> = ssrcs.iter().map(|_| vec![draw.u64() as u16]).collect();
    let mut trace = label_block(form, &blocks::label(draw), tables::ssrc(draw)).unwrap();
    for _ in 0..if ssrcs.is_empty() { 0 } else { draw.below(most_blocks + 1) } {
        let source = draw.index(ssrcs.len());
        let wires = arrivals::wires(draw, *numbers[source].last().unwrap(), blocks::count(draw, form));
        let records = blocks::with_times(draw, below, &wires[..wires.len().min(form.most_records())]);
        trace.extend(arrivals_block(form, &records, ssrcs[source]).unwrap());
        numbers[source] = wires;
    }
    trace
}

/// A trace with one to three faults, made of a sound one.
pub fn damaged(draw: &Draw, mut trace: Vec<u8>) -> Vec<u8> {
    for _ in 0..draw.within(1, 3) {
        damage(draw, &mut trace);
    }
    trace
}

fn damage(draw: &Draw, trace: &mut Vec<u8>) {
    if trace.len() < BLOCK {
        return;
    }
    let at = BLOCK * draw.index(trace.len() / BLOCK);
    match draw.below(12) {
        0 => trace.truncate(draw.index(trace.len() + 1)),
        1 => trace.extend(draw.bytes(1 + draw.index(BLOCK))),
        2 | 3 => blocks::flip(draw, &mut trace[at..at + BLOCK]),
        4 | 5 => blocks::damage_contents(draw, &mut trace[at..at + BLOCK]),
        6 => blocks::check_of_ones(draw, &mut trace[at..at + BLOCK]),
        7 => {
            // Another SSRC, with the check that fits.
            trace[at + 4 + draw.index(4)] ^= 1 << draw.below(8);
            set_check(&mut trace[at..at + BLOCK]);
        }
        8 => {
            // A block again at another place: a label behind the first block, or arrivals in front.
            let block = trace[at..at + BLOCK].to_vec();
            let place = BLOCK * draw.index(trace.len() / BLOCK + 1);
            trace.splice(place..place, block);
        }
        9 | 10 => other_form(draw, &mut trace[at..at + BLOCK]),
        _ => long_time(draw, &mut trace[at..at + BLOCK]),
    }
}

/// A trace with one to six faults of a bad memory stick: single blocks or stretches that are damaged, zeros, exchanged, again, gone or cut, bytes that are gone
/// or too many, and another trace behind it. Block 0 is hit now and then.
pub fn battered(draw: &Draw, mut trace: Vec<u8>) -> Vec<u8> {
    for _ in 0..draw.within(1, 6) {
        batter(draw, &mut trace);
    }
    trace
}

fn batter(draw: &Draw, trace: &mut Vec<u8>) {
    let count = trace.len() / BLOCK;
    if count < 2 {
        return damage(draw, trace);
    }
    let one = |draw: &Draw| if draw.one_in(20) { 0 } else { draw.within(1, count as u64 - 1) as usize };
    let (at, other) = (one(draw), one(draw));
    let block = |index: usize| BLOCK * index..BLOCK * (index + 1);
    match draw.below(12) {
        0 => {
            let [first, second] = [at, other].map(|index| trace[block(index)].to_vec());
            trace[block(at)].copy_from_slice(&second);
            trace[block(other)].copy_from_slice(&first);
        }
        1 => {
            let again = trace[block(at)].to_vec();
            trace.splice(BLOCK * other..BLOCK * other, again);
        }
        2 => drop(trace.drain(block(at))),
        3 => trace[BLOCK * at.min(other)..BLOCK * at.max(other)].fill(draw.of(&[0, 0, 0xFF])),
        4 => trace[block(at)].fill(0),
        5 => trace.truncate(trace.len() - draw.index(BLOCK)),
        6 => trace.extend(sound(draw, 4)),
        7 if draw.one_in(3) => drop(trace.drain(BLOCK * at..BLOCK * at + draw.index(BLOCK))),
        8 if draw.one_in(3) => drop(trace.splice(BLOCK * at..BLOCK * at, draw.bytes(draw.index(BLOCK)))),
        9 => blocks::damage_contents(draw, &mut trace[block(at)]),
        _ => blocks::flip(draw, &mut trace[block(at)]),
    }
}

/// In place of a sound block a sound one of the other form and the same SSRC.
fn other_form(draw: &Draw, block: &mut [u8]) {
    if let Ok((form, ssrc, contents)) = read(block) {
        let form = form.other();
        block.copy_from_slice(&match contents {
            Contents::Label(label) => label_block(form, &label, ssrc).unwrap(),
            Contents::Arrivals(_) => arrivals_block(form, &blocks::records(draw, form, form.times()), ssrc).unwrap(),
        });
    }
}

/// In a sound block of form 2 one record has a time at an end of 32 or 48 bits.
pub fn long_time(draw: &Draw, block: &mut [u8]) {
    if let Ok((Form::Two, ssrc, Contents::Arrivals(mut records))) = read(block) {
        let place = draw.index(records.len());
        records[place].time = draw.of(&[(1 << 32) - 1, 1 << 32, (1 << 32) + 1, 1 << 40, (1 << 48) - 1]);
        block.copy_from_slice(&arrivals_block(Form::Two, &records, ssrc).unwrap());
    }
}

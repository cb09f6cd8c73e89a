//! What needs no state of its own: flasknib_lost, flasknib_since16, flasknib_since32, flasknib_lost_since, flasknib_breaker_start_preset,
//! flasknib_record_at, flasknib_write_refused, flasknib_version and flasknib_refusal_text.
use crate::compare::Compare;
use crate::lent::Lent;
use draw::{blocks, sources, Draw};
use model::breaker;
use model::trace::refused_line;

pub fn calls(compare: &Compare, draw: &Draw) {
    for _ in 0..60_000 {
        lost(compare, draw);
        differences(compare, draw);
        record_at(compare, draw);
        write_refused(compare, draw);
        refusal_text(compare, draw);
    }
    for _ in 0..5_000 {
        let mut words = Lent::new(&vec![draw.u64(); draw.sized(breaker::WORDS)]);
        let time = draw.astray(0, breaker::TIMES - 1);
        compare.call("flasknib_breaker_start_preset", &mut words, |calls, words| {
            i64::from(calls.breaker_start_preset(time, words.part_mut()))
        });
    }
}

fn lost(compare: &Compare, draw: &Draw) {
    let mut lent = (Lent::new(&sources::any(draw)), Lent::new(&vec![draw.u64(); draw.room(1)]));
    compare.call("flasknib_lost", &mut lent, |calls, (source, found)| i64::from(calls.lost(source.part(), found.part_mut())));
}

/// A counter and one that is often the same or near it.
fn pair(draw: &Draw, most: u64) -> (u64, u64) {
    let earlier = draw.edge(0, most);
    let later = match draw.below(3) {
        0 => earlier.wrapping_add(draw.below(5)).wrapping_sub(2) & most,
        1 => earlier.wrapping_add(most / 2 + draw.below(5)).wrapping_sub(2) & most,
        _ => draw.edge(0, most),
    };
    (later, earlier)
}

/// Nothing is lent to these.
fn differences(compare: &Compare, draw: &Draw) {
    let (later, earlier) = pair(draw, u64::from(u32::MAX));
    compare.call("flasknib_since32", &mut (), |calls, ()| i64::from(calls.since32(later as u32, earlier as u32)));
    let (later, earlier) = pair(draw, u64::from(u16::MAX));
    compare.call("flasknib_since16", &mut (), |calls, ()| i64::from(calls.since16(later as u16, earlier as u16)));
    compare.call("flasknib_lost_since", &mut (), |calls, ()| i64::from(calls.lost_since(later as u16, earlier as u16)));
}

/// A record of a block, sound or not, at a place that it has or just behind the last.
fn record_at(compare: &Compare, draw: &Draw) {
    let block = blocks::any(draw);
    let count = block.get(3).map_or(0, |&count| u64::from(count));
    let index = if draw.one_in(10) { draw.any_size() } else { draw.edge(0, count) } as usize;
    let mut lent = (Lent::new(&block), Lent::new(&vec![draw.u64(); draw.room(3)]));
    compare.call("flasknib_record_at", &mut lent, |calls, (block, found)| {
        i64::from(calls.record_at(block.part(), index, found.part_mut()))
    });
}

/// The version, and the texts of numbers around those that have one.
fn refusal_text(compare: &Compare, draw: &Draw) {
    compare.call("flasknib_version", &mut (), |calls, _| i64::from(calls.version()));
    let number = draw.edge(0, 20) as u8;
    for room in draw.rooms(model::refusal::text(number).map_or(1, str::len)) {
        let mut out = Lent::new(&draw.bytes(room));
        compare.call("flasknib_refusal_text", &mut out, |calls, out| calls.refusal_text(number, out.part_mut()));
    }
}

fn write_refused(compare: &Compare, draw: &Draw) {
    let (number, block) = (draw.edge(0, 255) as u8, draw.any_size());
    for room in draw.rooms(refused_line(number, block).len()) {
        let mut out = Lent::new(&draw.bytes(room));
        compare.call("flasknib_write_refused", &mut out, |calls, out| calls.write_refused(number, block, out.part_mut()));
    }
}

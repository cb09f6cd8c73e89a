//! The calls on a table of several sources: single ones on tables of every kind, and runs of them.
use crate::calls::Calls;
use crate::compare::Compare;
use crate::counting::{mark, record, wire};
use crate::lent::Lent;
use crate::reading::{counters, read};
use draw::{arrivals, tables, Draw};
use model::compound::WORDS;
use model::streams::PLACE;

pub fn calls(compare: &Compare, draw: &Draw) {
    for _ in 0..60_000 {
        any_call(compare, draw, &mut Lent::new(&any(draw)));
    }
    for _ in 0..1_500 {
        run(compare, draw);
    }
}

fn any(draw: &Draw) -> Vec<u64> {
    if draw.one_in(3) {
        tables::damaged(draw)
    } else {
        tables::sound(draw)
    }
}

/// The words of the SSRC's record, or of none.
fn words_of(table: &[u64], ssrc: u32) -> &[u64] {
    table.chunks_exact(PLACE).find(|place| place[0] == u64::from(ssrc)).map_or(&[], |place| &place[1..])
}

fn any_call(compare: &Compare, draw: &Draw, table: &mut Lent<u64>) {
    let ssrc = tables::ssrc_near(draw, table.part());
    match draw.below(6) {
        0 | 1 => drop(arrive(compare, table, ssrc, wire(draw, words_of(table.part(), ssrc)), mark(draw))),
        2 | 3 => count_any_block(compare, draw, table, ssrc),
        4 => write_compound(compare, draw, table, ssrc),
        _ => read_place(compare, draw, table),
    }
}

pub fn arrive(compare: &Compare, table: &mut Lent<u64>, ssrc: u32, wire: u16, mark: u8) -> u8 {
    let call = |calls: &dyn Calls, table: &mut Lent<u64>| i64::from(calls.table_arrive(table.part_mut(), ssrc, wire, mark));
    compare.call("flasknib_sources_arrive", table, call) as u8
}

/// Records of four bytes, now and then none or too many, with a mark above 3, or of another width.
fn count_any_block(compare: &Compare, draw: &Draw, table: &mut Lent<u64>, ssrc: u32) {
    let highest = words_of(table.part(), ssrc).get(1).map_or(0, |&highest| highest as u16);
    let count = if draw.one_in(20) { draw.of(&[0, 63, 64]) } else { draw.edge(1, 62) as usize };
    let mut records: Vec<u8> = arrivals::wires(draw, highest, count)[..count].iter().flat_map(|&wire| record(wire, draw.below(4) as u8)).collect();
    if draw.one_in(20) && count > 0 {
        records[4 * draw.index(count) + 2] = draw.edge(4, 255) as u8;
    }
    let width = if draw.one_in(20) { draw.of(&[0, 3, 8, 62]) } else { 4 };
    let mut lent = (table.clone(), Lent::new(&records));
    compare.call("flasknib_sources_count_block", &mut lent, |calls, (table, records)| {
        calls.table_count_block(table.part_mut(), ssrc, records.part(), width)
    });
    *table = lent.0;
}

/// The compound; what it says of every held place, and of the SSRC `media`.
fn write_compound(compare: &Compare, draw: &Draw, table: &Lent<u64>, media: u32) {
    let sender = draw.u64() as u32;
    let need = 8 + 32 * table.part().chunks(PLACE).count();
    let room = if draw.one_in(3) { draw.room(need) } else { need };
    let mut lent = (table.clone(), Lent::new(&vec![draw.u64() as u8; room]));
    let answer = compare.call("flasknib_sources_write_compound", &mut lent, |calls, (table, out)| {
        calls.table_write_compound(table.part(), sender, out.part_mut())
    });
    if answer > 0 {
        let compound = &lent.1.part()[..answer as usize];
        let places = table.part().chunks(PLACE).take((answer as usize - 8) / 32);
        places.clone().for_each(|place| read_back(compare, draw, compound, sender, place));
        let (answer, found) = read(compare, compound, media, draw.below(2) as u8, &[9; WORDS]);
        let held = places.clone().any(|place| place[0] == u64::from(media));
        compare.hold(answer == 0 && found[7] == u64::from(held), "the compound has feedback of another source than those in the table");
    }
}

/// A held place's feedback is found.
fn read_back(compare: &Compare, draw: &Draw, compound: &[u8], sender: u32, place: &[u64]) {
    let (answer, found) = read(compare, compound, place[0] as u32, draw.below(2) as u8, &[9; WORDS]);
    let heads = found[7..10] == [1, u64::from(sender), place[2] % (1 << 32)];
    let as_written = answer == 0 && heads && found[10..16] == counters(&place[1..]) && found[23] == 1;
    compare.hold(as_written, &format!("the feedback of {place:?} reads back as {found:?}"));
}

fn read_place(compare: &Compare, draw: &Draw, table: &Lent<u64>) {
    let place = if draw.one_in(10) { draw.any_size() as usize } else { draw.index(18) };
    let mut lent = (table.clone(), Lent::new(&vec![draw.u64(); draw.room(PLACE)]));
    compare.call("flasknib_sources_place", &mut lent, |calls, (table, found)| {
        i64::from(calls.table_place(table.part(), place, found.part_mut()))
    });
    compare.call("flasknib_sources_held", &mut table.clone(), |calls, table| calls.table_held(table.part()));
}

/// Calls of every kind in turn on one table, from an empty one or a sound one on, for a few sources and now and then one too many.
fn run(compare: &Compare, draw: &Draw) {
    let start = if draw.one_in(2) { vec![0; PLACE * draw.edge(0, 16) as usize] } else { tables::sound(draw) };
    let mut table = Lent::new(&start);
    for _ in 0..draw.within(1, 60) {
        any_call(compare, draw, &mut table);
    }
}

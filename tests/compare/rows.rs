//! flasknib_write_head and flasknib_write_row.
use crate::compare::Compare;
use crate::lent::Lent;
use draw::{blocks, sources, Draw};
use model::source::{Source, MOST_ARRIVALS};
use model::table::{row, HEAD};

pub fn calls(compare: &Compare, draw: &Draw) {
    for _ in 0..1_250 {
        for room in draw.rooms(HEAD.len()) {
            let out = &mut Lent::new(&draw.bytes(room));
            compare.call("flasknib_write_head", out, |calls, out| calls.write_head(out.part_mut()));
        }
    }
    for _ in 0..50_000 {
        write_row(compare, draw);
    }
}

fn write_row(compare: &Compare, draw: &Draw) {
    let (label, words) = (blocks::any_label(draw), sources::any(draw));
    let ssrc = draw.u64() as u32;
    let (jumped, restarts) = (draw.astray(0, MOST_ARRIVALS), draw.astray(0, MOST_ARRIVALS));
    let wanted = Source::from_words(&words).and_then(|source| row(&label, ssrc, &source, jumped, restarts));
    let length = wanted.map_or(80, |row| row.len());
    for room in draw.rooms(length) {
        let out = vec![draw.u64() as u8; room];
        let lent = &mut (Lent::new(&label), Lent::new(&words), Lent::new(&out));
        compare.call("flasknib_write_row", lent, |calls, (label, source, out)| {
            calls.write_row(label.part(), ssrc, source.part(), jumped, restarts, out.part_mut())
        });
    }
}

//! flasknib_write_feedback and flasknib_write_summary.
use crate::compare::Compare;
use crate::lent::Lent;
use draw::{sources, Draw};

pub fn calls(compare: &Compare, draw: &Draw) {
    for _ in 0..37_500 {
        let (sender, media) = (draw.u64() as u32, draw.u64() as u32);
        let source = sources::any(draw);
        for room in draw.rooms(32) {
            feedback(compare, &source, sender, media, &draw.bytes(room));
        }
        let source = sources::any(draw);
        for room in draw.rooms(24) {
            summary(compare, &source, media, &draw.bytes(room));
        }
    }
}

/// Gives the bytes of `out` after the call.
pub fn feedback(compare: &Compare, source: &[u64], sender: u32, media: u32, out: &[u8]) -> Vec<u8> {
    let mut lent = (Lent::new(source), Lent::new(out));
    compare.call("flasknib_write_feedback", &mut lent, |calls, (source, out)| {
        calls.write_feedback(source.part(), sender, media, out.part_mut())
    });
    lent.1.part().to_vec()
}

pub fn summary(compare: &Compare, source: &[u64], media: u32, out: &[u8]) -> Vec<u8> {
    let mut lent = (Lent::new(source), Lent::new(out));
    compare.call("flasknib_write_summary", &mut lent, |calls, (source, out)| calls.write_summary(source.part(), media, out.part_mut()));
    lent.1.part().to_vec()
}

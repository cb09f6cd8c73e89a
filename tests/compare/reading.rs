//! flasknib_read_compound; written reports read back behind an 8-byte RR.
use crate::compare::Compare;
use crate::lent::Lent;
use crate::reports;
use draw::compounds::{RR, XR};
use draw::{compounds, sources, Draw};
use model::compound::WORDS;

/// Gives how many of the compounds were damaged ones.
pub fn calls(compare: &Compare, draw: &Draw) -> usize {
    let mut mutations = 0;
    for _ in 0..250_000 {
        let (bytes, damaged) = compounds::any(draw);
        mutations += usize::from(damaged);
        let found: Vec<u64> = (0..draw.room(WORDS)).map(|_| draw.u64()).collect();
        read(compare, &bytes, compounds::ssrc(draw), compounds::profile(draw), &found);
    }
    for _ in 0..5_000 {
        read_back(compare, draw);
    }
    mutations
}

/// Gives the answer and the words of `found` after the call.
pub fn read(compare: &Compare, bytes: &[u8], media: u32, profile: u8, found: &[u64]) -> (i64, Vec<u64>) {
    let mut lent = (Lent::new(bytes), Lent::new(found));
    let answer = compare.call("flasknib_read_compound", &mut lent, |calls, (bytes, found)| {
        i64::from(calls.read_compound(bytes.part(), media, profile, found.part_mut()))
    });
    (answer, lent.1.part().to_vec())
}

fn read_back(compare: &Compare, draw: &Draw) {
    let source = sources::sound(draw);
    let (sender, media) = (draw.u64() as u32, draw.u64() as u32);
    let feedback = reports::feedback(compare, &source, sender, media, &[0; 32]);
    let summary = reports::summary(compare, &source, media, &[0; 24]);
    let profile = draw.below(2) as u8;
    let (answer, found) = read(compare, &[&RR[..], &feedback, &XR, &summary].concat(), media, profile, &[9; WORDS]);
    let counters = counters(&source);
    let presence = (found[0], found[7], found[16], found[23], found[24]);
    let heads = (found[8], found[9]) == (u64::from(sender), source[1] % (1 << 32));
    let read = presence == (0, 1, 1, 1, 0) && heads && found[10..16] == counters && found[17..23] == counters;
    compare.hold(answer == 0 && read, &format!("the reports of {source:?} read back as {found:?}"));
}

/// From the words of a sound record: ECT(0), ECT(1), CE, not-ECT, lost, duplicates, modulo their widths.
pub fn counters(source: &[u64]) -> [u64; 6] {
    let [base, highest, not_ect, ect1, ect0, ce, duplicates] = source[..7].try_into().unwrap();
    let arrivals = not_ect + ect1 + ect0 + ce;
    let lost = if arrivals == 0 { 0 } else { (highest + 1 + duplicates).wrapping_sub(base + arrivals) };
    [ect0 % (1 << 32), ect1 % (1 << 32), ce % (1 << 16), not_ect % (1 << 16), lost % (1 << 16), duplicates % (1 << 16)]
}

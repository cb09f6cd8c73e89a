//! Document 01, "Worked examples", as they are printed there, C1's row with document 02's eleventh value: they hold the library and the model.
use crate::calls::{Calls, Settings};
use crate::circuit::{report, start};
use crate::compare::Compare;
use crate::counting::arrive;
use crate::lent::Lent;
use crate::reports::{feedback, summary};
use model::breaker::{self, Loss, Report};
use model::source::WORDS;

pub fn examples(compare: &Compare) {
    let c1 = after(compare, &[(65_534, 2), (65_535, 2), (0, 3), (0, 3), (3, 1)]);
    compare.hold(c1[..7] == [65_534, 65_539, 0, 1, 2, 2, 1] && c1[9] == 0, "C1");
    let c2 = [0x88CD0007, 9, 1, 0x00010003, 2, 1, 0x00020000, 0x00020001].map(u32::to_be_bytes).concat();
    compare.hold(feedback(compare, &c1, 9, 1, &[0; 32]) == c2, "C2");
    let c3 = [0x0D000005, 1, 2, 1, 0x00020000, 0x00020001].map(u32::to_be_bytes).concat();
    compare.hold(summary(compare, &c1, 1, &[0; 24]) == c3, "C3");
    let c4 = after(compare, &[(10, 0), (9, 0)]);
    compare.hold(feedback(compare, &c4, 9, 1, &[0; 32])[28..30] == [255, 255], "C4");
    for (wire, answer) in [(7_999, 0), (8_000, 7), (4_901, 0), (4_900, 7)] {
        let highest = after(compare, &[(5_000, 0)]);
        compare.hold(arrive(compare, &mut Lent::new(&highest), wire, 0) == answer, "C5 to C8");
    }
    for (lengths, fraction, rtt, rate, answer) in [
        ([5_000, 5_000], 64, 100, 244_948, 0),
        ([5_000, 5_000], 64, 100, 244_949, 0x103),
        ([5_000, 5_000], 150, 16, 1_000_000, 0),
        ([1, 9_999], 150, 16, 1_000_001, 0x103),
    ] {
        compare.hold(decision(compare, lengths, fraction, rtt, rate) == answer, "C9 to C12");
    }
    row(compare, &c1);
}

fn after(compare: &Compare, arrivals: &[(u16, u8)]) -> Vec<u64> {
    let mut source = Lent::new(&[0; WORDS]);
    for &(wire, mark) in arrivals {
        arrive(compare, &mut source, wire, mark);
    }
    source.part().to_vec()
}

fn decision(compare: &Compare, lengths: [u64; 2], fraction: u64, rtt: u64, rate: u64) -> i64 {
    let mut breaker = Lent::new(&[0; breaker::WORDS]);
    start(compare, &mut breaker, Settings { k: 2, m: 3, timeout: 15_000, reduce: 0, full: 0 }, 0);
    let mut last = Report { time: 1_000, number: 1, loss: Loss::Fraction(fraction), rtt, size: 1_000, rate };
    report(compare, &mut breaker, &last);
    last = Report { time: last.time + lengths[0], number: 2, ..last };
    report(compare, &mut breaker, &last);
    last = Report { time: last.time + lengths[1], number: 3, ..last };
    report(compare, &mut breaker, &last)
}

/// In 41 bytes the row; in fewer none of it, and 12 with 41 in one number, 256 * 41 + 12.
fn row(compare: &Compare, c1: &[u64]) {
    let (label, wanted) = (b"probe 2, left", b"\"probe 2, left\",1,65539,2,1,2,0,2,1,0,0\r\n");
    let call = |calls: &dyn Calls, out: &mut Lent<u8>| calls.write_row(label, 1, c1, 0, 0, out.part_mut());
    let mut out = Lent::new(&[0; 41]);
    let answer = compare.call("flasknib_write_row", &mut out, call);
    compare.hold(answer == 41 && out.part() == wanted, "C1's row");
    for room in [0, 40] {
        let mut out = Lent::new(&vec![0; room]);
        let answer = compare.call("flasknib_write_row", &mut out, call);
        compare.hold(answer == -10_508 && out.part() == vec![0; room], "C1's row in less room");
    }
}

//! Document 02, L10, by hand: blocks of both forms. The answers and the bytes stand here as numbers; they hold the library and the model.
use crate::blocks::{read, write_arrivals, write_label};
use crate::compare::Compare;

const WRITTEN: i64 = 512;
const REFUSED: i64 = -10;

/// A form, how many records, the time of the last of them, and the answer.
const CALLS: [(u8, usize, u64, i64); 23] = [
    (1, 1, 0, WRITTEN),
    (1, 1, (1 << 32) - 1, WRITTEN),
    (1, 1, 1 << 32, REFUSED),
    (1, 1, (1 << 48) - 1, REFUSED),
    (1, 1, u64::MAX, REFUSED),
    (2, 1, 0, WRITTEN),
    (2, 1, (1 << 32) - 1, WRITTEN),
    (2, 1, 1 << 32, WRITTEN),
    (2, 1, (1 << 48) - 1, WRITTEN),
    (2, 1, 1 << 48, REFUSED),
    (2, 1, u64::MAX, REFUSED),
    (1, 0, 0, REFUSED),
    (1, 50, 1 << 32, REFUSED),
    (1, 51, 0, WRITTEN),
    (1, 62, (1 << 32) - 1, WRITTEN),
    (1, 63, 0, REFUSED),
    (2, 0, 0, REFUSED),
    (2, 50, (1 << 48) - 1, WRITTEN),
    (2, 51, 0, REFUSED),
    (2, 62, 0, REFUSED),
    (0, 1, 0, REFUSED),
    (3, 1, 0, REFUSED),
    (255, 1, 0, REFUSED),
];

pub fn examples(compare: &Compare) {
    for (form, count, time, wanted) in CALLS {
        let mut times = vec![7; count];
        times.iter_mut().last().into_iter().for_each(|last| *last = time);
        let (answer, out) = write_arrivals(compare, form, (&times, &vec![0x1234; count], &vec![3; count]), 1, &[9; 512]);
        let what = format!("form {form}, {count} records, the last at {time}");
        compare.hold(answer == wanted, &format!("{what}: {answer}"));
        if wanted == WRITTEN {
            let kind = 2 * u64::from(form);
            compare.hold(read(compare, &out, &[0; 3]) == (0, vec![kind, count as u64, 1]), &format!("{what}: its words"));
            let (end, time) = (8 + count * [8, 10][usize::from(form) - 1], time.to_be_bytes());
            let last = [&time[if form == 1 { 4 } else { 2 }..], &[0x12, 0x34, 3, 0]].concat();
            compare.hold(out[..end].ends_with(&last) && out[end..510].iter().all(|&byte| byte == 0), &format!("{what}: its bytes"));
        }
    }
    labels(compare);
}

/// The same label in both forms: kind 1 or 3, and the check is 2 less.
fn labels(compare: &Compare) {
    let block = |kind, check: u16| [&[0, kind, 0, 2, 0, 0, 0, 1, b'h', b'i'][..], &[0; 500], &check.to_be_bytes()].concat();
    let check = 65_535 - (1 + 2 + 1 + 0x6869);
    let untouched = || (REFUSED, vec![9; 512]);
    let wanted = [(1, (WRITTEN, block(1, check))), (2, (WRITTEN, block(3, check - 2))), (0, untouched()), (3, untouched())];
    for (form, (wanted, bytes)) in wanted {
        compare.hold(write_label(compare, form, b"hi", 1, &[9; 512]) == (wanted, bytes), &format!("a label of form {form}"));
    }
}

//! Document 01, "Table", with document 02's eleventh column (L5); RFC 4180 section 2 has the quoting.
use crate::refusal::*;
use crate::source::{Source, CE, ECT0, ECT1, MOST_ARRIVALS, NOT_ECT};
use crate::trace::is_label;

pub const HEAD: &[u8] = b"label,ssrc,highest,ect0,ect1,ce,notect,lost,dup,jumped,restarts\r\n";

/// The values of a row behind the label.
pub fn numbers(ssrc: u32, source: &Source, jumped: u64, restarts: u64) -> [i64; 10] {
    let mark = |mark: usize| source.marks[mark] as i64;
    let marks = [mark(ECT0), mark(ECT1), mark(CE), mark(NOT_ECT)];
    let [ect0, ect1, ce, not_ect] = marks;
    let duplicates = source.duplicates as i64;
    [i64::from(ssrc), source.highest, ect0, ect1, ce, not_ect, source.lost(), duplicates, jumped as i64, restarts as i64]
}

/// The source is sound; what is left is 10.
pub fn row(label: &[u8], ssrc: u32, source: &Source, jumped: u64, restarts: u64) -> Result<Vec<u8>, Refusal> {
    require(is_label(label) && jumped.max(restarts) <= MOST_ARRIVALS, LIMITS)?;
    let mut row = field(label);
    for number in numbers(ssrc, source, jumped, restarts) {
        row.extend(format!(",{number}").bytes());
    }
    row.extend(b"\r\n");
    Ok(row)
}

fn field(label: &[u8]) -> Vec<u8> {
    if !label.iter().any(|byte| b",\"\r\n".contains(byte)) {
        return label.to_vec();
    }
    let label = String::from_utf8(label.to_vec()).unwrap();
    format!("\"{}\"", label.replace('"', "\"\"")).into_bytes()
}

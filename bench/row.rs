//! The row writer of document 01, with document 02's restarts (L5), in plain Rust, with the same checks: 9, 10, 12.
use crate::library::Source;
use std::io::{Cursor, Write};

const MOST: u64 = 1 << 48;

fn is_sound(s: &Source) -> bool {
    let &[base, highest, notect, ect1, ect0, ce, duplicates, recent, older, remembered] = s;
    if s.iter().all(|&word| word == 0) {
        return true;
    }
    if [notect, ect1, ect0, ce].iter().any(|&n| n > MOST) {
        return false;
    }
    let (n, base, highest) = (notect + ect1 + ect0 + ce, base as i64, highest as i64);
    let counts = (1..=MOST).contains(&n) && duplicates < n;
    if !(0..=65_535).contains(&base) || highest < base || !counts || recent & 1 == 0 || older >> 36 != 0 || remembered > 65_536 {
        return false;
    }
    let distinct = n - duplicates;
    let places = u64::from(recent.count_ones() + older.count_ones());
    places <= distinct && (highest - base) as u64 <= 2_999 * (distinct - 1)
}

fn lost(s: &Source) -> i64 {
    let arrivals: u64 = s[2..6].iter().sum();
    if arrivals == 0 { 0 } else { (s[1] - s[0] + 1) as i64 - (arrivals - s[6]) as i64 }
}

fn format(label: &[u8], ssrc: u32, s: &Source, jumped: u64, restarts: u64, out: &mut impl Write) -> std::io::Result<()> {
    if label.iter().any(|c| matches!(c, b'"' | b',' | b'\r' | b'\n')) {
        out.write_all(b"\"")?;
        for (i, part) in label.split(|&c| c == b'"').enumerate() {
            out.write_all(if i == 0 { b"" } else { b"\"\"" })?;
            out.write_all(part)?;
        }
        out.write_all(b"\"")?;
    } else {
        out.write_all(label)?;
    }
    let &[_, highest, notect, ect1, ect0, ce, duplicates, ..] = s;
    let lost = lost(s);
    write!(out, ",{ssrc},{highest},{ect0},{ect1},{ce},{notect},{lost},{duplicates},{jumped},{restarts}\r\n")
}

/// The length, or minus a refusal; 12 stands beside the length, 256 times.
#[inline(always)]
pub fn write_row(label: &[u8], ssrc: u32, s: &Source, jumped: u64, restarts: u64, out: &mut [u8]) -> i64 {
    if !is_sound(s) {
        return -9;
    }
    let fits = label.len() <= 502 && label.iter().all(|&c| matches!(c, 32..=126 | 10 | 13));
    if !fits || jumped > MOST || restarts > MOST {
        return -10;
    }
    let mut row = Cursor::new([0; 1_280]);
    format(label, ssrc, s, jumped, restarts, &mut row).expect("a row fits 1,280 bytes");
    let n = row.position() as usize;
    if out.len() < n {
        return -(256 * n as i64 + 12);
    }
    out[..n].copy_from_slice(&row.get_ref()[..n]);
    n as i64
}

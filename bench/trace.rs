//! The blocks of a trace read in straightforward Rust, for the other programs.
#![allow(dead_code)] // No program needs all of it.
use crate::blocks::{ones_sum, BLOCK, BODY, CHECK};
use crate::form::{Form, ONE, TWO};
use std::io::{self, Read};

/// What a sound block is: a label of `count` bytes or so many arrivals.
pub struct Found {
    pub form: Form,
    pub is_label: bool,
    pub count: usize,
    pub ssrc: u32,
}

pub fn short(b: &[u8], at: usize) -> u16 {
    u16::from_be_bytes([b[at], b[at + 1]])
}

fn is_label(body: &[u8], n: usize) -> bool {
    n <= 502 && body[..n].iter().all(|&c| matches!(c, 32..=126 | 10 | 13)) && body[n..].iter().all(|&c| c == 0)
}

fn are_arrivals<const WIDTH: usize>(body: &[u8], n: usize) -> bool {
    (1..=body.len() / WIDTH).contains(&n)
        && body[..WIDTH * n].chunks_exact(WIDTH).all(|record| record[WIDTH - 2] <= 3 && record[WIDTH - 1] == 0)
        && body[WIDTH * n..].iter().all(|&c| c == 0)
}

/// What a block is, or its refusal.
pub fn read(b: &[u8]) -> Result<Found, u8> {
    if b.len() != BLOCK {
        return Err(1);
    }
    if ones_sum(b) != 0xffff || short(b, CHECK) == 0xffff {
        return Err(13);
    }
    let (count, body) = (usize::from(short(b, 2)), &b[BODY..CHECK]);
    let (form, label, fits) = match short(b, 0) {
        1 => (ONE, true, is_label(body, count)),
        2 => (ONE, false, are_arrivals::<8>(body, count)),
        3 => (TWO, true, is_label(body, count)),
        4 => (TWO, false, are_arrivals::<10>(body, count)),
        _ => return Err(14),
    };
    let ssrc = u32::from_be_bytes([b[4], b[5], b[6], b[7]]);
    if fits { Ok(Found { form, is_label: label, count, ssrc }) } else { Err(14) }
}

/// Block 0 of a trace.
pub fn zeroth(b: &[u8]) -> Result<Found, u8> {
    read(b).and_then(|found| if found.is_label { Ok(found) } else { Err(14) })
}

/// The number of records of a later block, which has the label's form and SSRC.
pub fn later(label: &Found, b: &[u8]) -> Result<usize, u8> {
    let found = read(b)?;
    if found.is_label || found.form != label.form || found.ssrc != label.ssrc { Err(14) } else { Ok(found.count) }
}

/// Reads up to a whole block.
pub fn next_block(input: &mut impl Read, b: &mut [u8; BLOCK]) -> io::Result<usize> {
    let mut n = 0;
    while n < BLOCK {
        match input.read(&mut b[n..])? {
            0 => break,
            more => n += more,
        }
    }
    Ok(n)
}

//! Blocks of a trace (document 01, "Trace file"), for the benchmark's inputs and the other programs.
#![allow(dead_code)] // No program needs all of it.
use crate::form::Form;

pub const BLOCK: usize = 512;
pub const BODY: usize = 8;
pub const CHECK: usize = 510;

/// The ones' complement sum of the block's words.
pub fn ones_sum(block: &[u8]) -> u16 {
    let sum: u32 = block.chunks_exact(2).map(|word| u32::from(u16::from_be_bytes([word[0], word[1]]))).sum();
    let once = (sum & 0xffff) + (sum >> 16);
    ((once & 0xffff) + (once >> 16)) as u16
}

/// Stores the header and the check of a block whose body is there.
pub fn seal(block: &mut [u8; BLOCK], kind: u16, count: usize, ssrc: u32) {
    block[0..2].copy_from_slice(&kind.to_be_bytes());
    block[2..4].copy_from_slice(&(count as u16).to_be_bytes());
    block[4..8].copy_from_slice(&ssrc.to_be_bytes());
    let check = !ones_sum(&block[..CHECK]);
    block[CHECK..].copy_from_slice(&check.to_be_bytes());
}

fn block(kind: u16, count: usize, ssrc: u32, body: &[u8]) -> [u8; BLOCK] {
    let mut out = [0; BLOCK];
    out[BODY..BODY + body.len()].copy_from_slice(body);
    seal(&mut out, kind, count, ssrc);
    out
}

pub fn label(form: Form, text: &[u8], ssrc: u32) -> [u8; BLOCK] {
    block(form.label, text.len(), ssrc, text)
}

pub fn arrivals(form: Form, records: &[u8], ssrc: u32) -> [u8; BLOCK] {
    block(form.label + 1, records.len() / form.width, ssrc, records)
}

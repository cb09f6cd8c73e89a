//! The blocks of a trace, of 512 bytes each: read, judged and written.
use crate::header::{self, BLOCK_BYTES, BLOCK_WORDS, RECORD_WORDS};
use crate::refusals::{accepted, counted, fixed, Result};

/// The form of a trace.
#[derive(Clone, Copy, Debug, PartialEq, Eq)]
#[repr(u8)]
pub enum Form {
    /// Times of 32 bits in ms.
    One = header::FORM_ONE as u8,
    /// Times of 48 bits in ms.
    Two = header::FORM_TWO as u8,
}

/// What a block holds, and the form of its trace.
#[derive(Clone, Copy, Debug, PartialEq, Eq)]
#[allow(missing_docs)]
pub enum Kind {
    LabelOne,
    ArrivalsOne,
    LabelTwo,
    ArrivalsTwo,
}

/// A sound block.
#[derive(Clone, Copy, Debug, PartialEq, Eq)]
pub struct Block {
    /// What it holds.
    pub kind: Kind,
    /// The bytes of its label, or the number of its records.
    pub held: usize,
    /// The SSRC.
    pub ssrc: u32,
}

/// An arrival: its time in ms, its sequence number, its mark.
#[derive(Clone, Copy, Debug, PartialEq, Eq)]
#[allow(missing_docs)]
pub struct Record {
    pub time: u64,
    pub wire: u16,
    pub mark: u8,
}

/// Judges a block by itself. Refused with 1, 13 or 14.
pub fn read_block(block: &[u8]) -> Result<Block> {
    let mut found = [0; BLOCK_WORDS];
    accepted(header::read_block(block, &mut found))?;
    let kind = match found[header::BLOCK_KIND] as usize {
        header::KIND_LABEL_ONE => Kind::LabelOne,
        header::KIND_ARRIVALS_ONE => Kind::ArrivalsOne,
        header::KIND_LABEL_TWO => Kind::LabelTwo,
        _ => Kind::ArrivalsTwo,
    };
    Ok(Block { kind, held: found[header::BLOCK_HELD] as usize, ssrc: found[header::BLOCK_SSRC] as u32 })
}

/// Judges a later block at its place in a trace of this form and this SSRC, as ecntable does. Refused with 1, 13 or 14.
pub fn read_own(form: Form, ssrc: u32, block: &[u8]) -> Result<()> {
    accepted(header::read_own(form as u8, ssrc, block))
}

/// The record `i`, counted from 0, of a block of arrivals. Refused with 1, 14, or 10 for no such record.
pub fn record_at(block: &[u8], i: usize) -> Result<Record> {
    let mut found = [0; RECORD_WORDS];
    accepted(header::record_at(block, i, &mut found))?;
    Ok(Record { time: found[header::RECORD_TIME], wire: found[header::RECORD_WIRE] as u16, mark: found[header::RECORD_MARK] as u8 })
}

/// The label block of a new trace. Refused with 10 for a label that is no printable ASCII of 0 to 502 bytes, and with 19 for one with a
/// line break.
pub fn write_label(form: Form, label: &[u8], ssrc: u32) -> Result<[u8; BLOCK_BYTES]> {
    fixed(|out| header::write_label(form as u8, label, ssrc, out))
}

/// A block of arrivals, of three lists. Refused with 10 for lists that differ in length, no record, more than the form has to a block, a
/// time that it has no bytes for or a mark above 3.
pub fn write_arrivals(form: Form, times: &[u64], numbers: &[u16], marks: &[u8], ssrc: u32) -> Result<[u8; BLOCK_BYTES]> {
    fixed(|out| header::write_arrivals(form as u8, times, numbers, marks, ssrc, out))
}

/// A block of arrivals, of the bytes of its records. Refused with 10.
pub fn write_records(form: Form, records: &[u8], ssrc: u32) -> Result<[u8; BLOCK_BYTES]> {
    fixed(|out| header::write_records(form as u8, records, ssrc, out))
}

/// Block 0 of a trace again, with one space in the place of each line break of its label, and how many bytes that are. Refused with 1,
/// 13 or 14.
pub fn space_label(zeroth: &[u8]) -> Result<([u8; BLOCK_BYTES], usize)> {
    let mut out = [0; BLOCK_BYTES];
    let replaced = counted(header::space_label(zeroth, &mut out))?;
    Ok((out, replaced))
}

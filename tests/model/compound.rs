//! Document 01, "Packets": the compound reader, and its second profile, of document 02, L4. RFC 3550 section 6 has SR, RR and padding, RFC 3611
//! section 3 the XR blocks, RFC 5506 the reduced-size compounds.
use crate::bytes::{u16_at, u32_at};
use crate::refusal::*;

pub const WORDS: usize = 25;
pub const MOST_BYTES: usize = 65_507;

/// The fields of the first report of each kind, in the order of the header's words.
#[derive(Default)]
pub struct Found {
    pub report_block: Option<[u64; 6]>,
    /// The SSRC of who sent the SR or RR of that block.
    pub reporter: u32,
    pub feedback: Option<[u64; 8]>,
    pub summary: Option<[u64; 6]>,
    /// An SR or an RR is there, about whomever.
    pub has_report_packet: bool,
}

#[derive(Clone, Copy, PartialEq)]
pub enum Profile {
    Compound,
    ReducedSize,
}

impl Profile {
    pub fn from_number(number: u8) -> Result<Profile, Refusal> {
        match number {
            0 => Ok(Profile::Compound),
            1 => Ok(Profile::ReducedSize),
            _ => Err(LIMITS),
        }
    }
}

impl Found {
    pub fn to_words(&self) -> Vec<u64> {
        let mut words = Vec::new();
        let mut item = |fields: Option<&[u64]>, length: usize| match fields {
            Some(fields) => {
                words.push(1);
                words.extend(fields);
            }
            None => words.extend(vec![0; 1 + length]),
        };
        item(self.report_block.as_ref().map(|fields| &fields[..]), 6);
        item(self.feedback.as_ref().map(|fields| &fields[..]), 8);
        item(self.summary.as_ref().map(|fields| &fields[..]), 6);
        words.push(u64::from(self.has_report_packet));
        words.push(u64::from(self.reporter));
        words
    }
}

pub fn read(bytes: &[u8], media: u32, profile: Profile) -> Result<Found, Refusal> {
    require(!bytes.is_empty(), INCOMPLETE)?;
    require(bytes.len() <= MOST_BYTES, LIMITS)?;
    let mut found = Found::default();
    let mut rest = bytes;
    while !rest.is_empty() {
        let first = rest.len() == bytes.len();
        let (packet, after) = split_packet(rest)?;
        let packet = without_padding(packet, after.is_empty())?;
        let is_report = matches!(packet[1], 200 | 201);
        require(profile == Profile::ReducedSize || !first || is_report, FIRST_PACKET)?;
        found.has_report_packet |= is_report;
        read_packet(packet, media, &mut found)?;
        rest = after;
    }
    Ok(found)
}

fn split_packet(rest: &[u8]) -> Result<(&[u8], &[u8]), Refusal> {
    require(rest.len() >= 4, INCOMPLETE)?;
    require(rest[0] >> 6 == 2, VERSION)?;
    let length = 4 * (usize::from(u16_at(rest, 2)) + 1);
    require(length <= rest.len(), PACKET_SIZE)?;
    Ok(rest.split_at(length))
}

fn without_padding(packet: &[u8], last: bool) -> Result<&[u8], Refusal> {
    if packet[0] & 0x20 == 0 {
        return Ok(packet);
    }
    let count = usize::from(packet[packet.len() - 1]);
    require(last && count % 4 == 0 && count >= 4 && count <= packet.len() - 4, PADDING)?;
    Ok(&packet[..packet.len() - count])
}

fn read_packet(packet: &[u8], media: u32, found: &mut Found) -> Result<(), Refusal> {
    let count = usize::from(packet[0] & 31);
    match (packet[1], count) {
        (200, _) => read_report_blocks(packet, 28, count, media, found),
        (201, _) => read_report_blocks(packet, 8, count, media, found),
        (205, 8) => read_feedback(packet, media, found),
        (207, _) => {
            require(packet.len() >= 8, PACKET_SIZE)?;
            read_xr_blocks(&packet[8..], media, found)
        }
        _ => Ok(()),
    }
}

fn read_report_blocks(packet: &[u8], before: usize, count: usize, media: u32, found: &mut Found) -> Result<(), Refusal> {
    require(packet.len() >= before + 24 * count, PACKET_SIZE)?;
    for block in packet[before..].chunks(24).take(count) {
        if u32_at(block, 0) == media && found.report_block.is_none() {
            let lost = (u32_at(block, 4) << 8) as i32 >> 8;
            let field = |at| u64::from(u32_at(block, at));
            found.report_block = Some([u64::from(block[4]), i64::from(lost) as u64, field(8), field(12), field(16), field(20)]);
            found.reporter = u32_at(packet, 4);
        }
    }
    Ok(())
}

fn read_feedback(packet: &[u8], media: u32, found: &mut Found) -> Result<(), Refusal> {
    require(packet.len() == 32, PACKET_SIZE)?;
    if u32_at(packet, 8) == media && found.feedback.is_none() {
        let [ect0, ect1, ce, not_ect, lost, duplicates] = counters(&packet[16..]);
        let (sender, highest) = (u64::from(u32_at(packet, 4)), u64::from(u32_at(packet, 12)));
        found.feedback = Some([sender, highest, ect0, ect1, ce, not_ect, lost, duplicates]);
    }
    Ok(())
}

fn read_xr_blocks(blocks: &[u8], media: u32, found: &mut Found) -> Result<(), Refusal> {
    let mut rest = blocks;
    while !rest.is_empty() {
        require(rest.len() >= 4, BLOCK_SIZE)?;
        let words = usize::from(u16_at(rest, 2));
        require(4 * words + 4 <= rest.len(), BLOCK_SIZE)?;
        let (block, after) = rest.split_at(4 * words + 4);
        if block[0] == 13 && words % 5 == 0 {
            let entry = block[4..].chunks(20).find(|entry| u32_at(entry, 0) == media);
            found.summary = found.summary.or(entry.map(|entry| counters(&entry[4..])));
        }
        rest = after;
    }
    Ok(())
}

/// ECT(0), ECT(1), CE, not-ECT, lost, duplicates.
fn counters(bytes: &[u8]) -> [u64; 6] {
    let long = |at| u64::from(u32_at(bytes, at));
    let short = |at| u64::from(u16_at(bytes, at));
    [long(0), long(4), short(8), short(10), short(12), short(14)]
}

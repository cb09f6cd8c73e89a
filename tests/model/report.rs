//! Document 01, "Packets": the ECN feedback packet and the ECN summary block of RFC 6679.
use crate::source::{Source, CE, ECT0, ECT1, NOT_ECT};

pub fn feedback(source: &Source, sender: u32, media: u32) -> Vec<u8> {
    let mut packet = vec![2 << 6 | 8, 205, 0, 7];
    packet.extend(sender.to_be_bytes());
    packet.extend(media.to_be_bytes());
    packet.extend((source.highest as u32).to_be_bytes());
    packet.extend(counters(source));
    packet
}

pub fn summary(source: &Source, media: u32) -> Vec<u8> {
    let mut block = vec![13, 0, 0, 5];
    block.extend(media.to_be_bytes());
    block.extend(counters(source));
    block
}

/// ECT(0), ECT(1), CE, not-ECT, lost, duplicates, each modulo its width.
fn counters(source: &Source) -> Vec<u8> {
    let mut bytes = Vec::new();
    bytes.extend((source.marks[ECT0] as u32).to_be_bytes());
    bytes.extend((source.marks[ECT1] as u32).to_be_bytes());
    for short in [source.marks[CE], source.marks[NOT_ECT], source.lost() as u64, source.duplicates] {
        bytes.extend((short as u16).to_be_bytes());
    }
    bytes
}

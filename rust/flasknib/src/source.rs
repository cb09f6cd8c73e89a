//! One RTP source: its arrivals counted by ECN mark, and the ECN reports about it.
use crate::header::{self, FEEDBACK_BYTES, LOST_WORDS, REFUSAL_JUMP, RESTARTED, ROW_MOST_BYTES, SOURCE_WORDS, SUMMARY_BYTES};
use crate::refusals::{accepted, counted, fixed, taken_apart, written, Refused, Result};

/// The two ECN bits of the IP header (RFC 3168).
#[derive(Clone, Copy, Debug, PartialEq, Eq)]
#[repr(u8)]
pub enum Mark {
    /// No ECN.
    NotEct = header::MARK_NOT_ECT as u8,
    /// ECT(1).
    Ect1 = header::MARK_ECT1 as u8,
    /// ECT(0).
    Ect0 = header::MARK_ECT0 as u8,
    /// Congestion experienced.
    Ce = header::MARK_CE as u8,
}

impl From<Mark> for u8 {
    fn from(mark: Mark) -> u8 {
        mark as u8
    }
}

/// What an arrival was. A jump is refused with 7: it is left out, and only remembered. It is no error here, since every sender that
/// reboots gives one; its next packet restarts the source.
#[derive(Clone, Copy, Debug, PartialEq, Eq)]
pub enum Arrival {
    /// It is counted.
    Counted,
    /// Its number is too far from the highest: it is left out.
    Jump,
    /// Its number follows a jump: counting begins again with it.
    Restarted,
}

/// What a block of arrivals brought beside its counts.
#[derive(Clone, Copy, Debug, PartialEq, Eq)]
pub struct Counted {
    /// Arrivals that were left out.
    pub jumps: u64,
    /// How often the source began again.
    pub restarts: u64,
}

pub(crate) fn arrival(answer: u8) -> Result<Arrival> {
    match usize::from(answer) {
        0 => Ok(Arrival::Counted),
        RESTARTED => Ok(Arrival::Restarted),
        REFUSAL_JUMP => Ok(Arrival::Jump),
        _ => Err(Refused::of(answer)),
    }
}

pub(crate) fn block_counted(answer: i64) -> Result<Counted> {
    if answer < 0 {
        return Err(Refused::of(taken_apart(answer).0));
    }
    Ok(Counted { jumps: answer as u64 % 256, restarts: answer as u64 / 256 })
}

/// The counts of one RTP source; the default one has seen no packet.
#[derive(Clone, Debug, Default, PartialEq, Eq)]
pub struct Source(pub(crate) [u64; SOURCE_WORDS]);

impl Source {
    /// The source with these words, as the header lays them out. Words that no call left are refused by the next call.
    pub fn of(words: [u64; SOURCE_WORDS]) -> Source {
        Source(words)
    }

    /// Its words.
    pub fn words(&self) -> &[u64; SOURCE_WORDS] {
        &self.0
    }

    /// Counts a packet by its 16-bit sequence number and its mark. Refused with 9, 10 or 8.
    pub fn arrive(&mut self, wire: u16, mark: impl Into<u8>) -> Result<Arrival> {
        arrival(header::arrive(&mut self.0, wire, mark.into()))
    }

    /// Counts the 1 to 62 records of a block of arrivals, of `width` bytes each. Refused with 9 or 10.
    pub fn count_block(&mut self, records: &[u8], width: usize) -> Result<Counted> {
        block_counted(header::count_block(&mut self.0, records, width))
    }

    /// The first sequence number.
    pub fn base(&self) -> i64 {
        self.0[header::SOURCE_BASE] as i64
    }

    /// The highest sequence number, with its wraps counted.
    pub fn highest(&self) -> i64 {
        self.0[header::SOURCE_HIGHEST] as i64
    }

    /// Packets with the mark not-ECT.
    pub fn not_ect(&self) -> u64 {
        self.0[header::SOURCE_NOT_ECT]
    }

    /// Packets with the mark ECT(1).
    pub fn ect1(&self) -> u64 {
        self.0[header::SOURCE_ECT1]
    }

    /// Packets with the mark ECT(0).
    pub fn ect0(&self) -> u64 {
        self.0[header::SOURCE_ECT0]
    }

    /// Packets with the mark CE.
    pub fn ce(&self) -> u64 {
        self.0[header::SOURCE_CE]
    }

    /// Packets whose number had arrived before.
    pub fn duplicates(&self) -> u64 {
        self.0[header::SOURCE_DUPLICATES]
    }

    /// Packets lost; negative if packets from before the first came. Refused with 9.
    pub fn lost(&self) -> Result<i64> {
        let mut found = [0; LOST_WORDS];
        accepted(header::lost(&self.0, &mut found))?;
        Ok(found[0] as i64)
    }

    /// The ECN feedback packet from the SSRC `sender` about the SSRC `media`. Refused with 9.
    pub fn feedback(&self, sender: u32, media: u32) -> Result<[u8; FEEDBACK_BYTES]> {
        fixed(|out| header::write_feedback(&self.0, sender, media, out))
    }

    /// The XR ECN summary block about the SSRC `media`, for an XR packet. Refused with 9.
    pub fn summary(&self, media: u32) -> Result<[u8; SUMMARY_BYTES]> {
        fixed(|out| header::write_summary(&self.0, media, out))
    }

    /// The row of a table with these counts, ended by CR LF. Refused with 9 or 10.
    pub fn row(&self, label: &[u8], ssrc: u32, jumped: u64, restarts: u64) -> Result<Vec<u8>> {
        written(ROW_MOST_BYTES, |out| header::write_row(label, ssrc, &self.0, jumped, restarts, out))
    }

    /// The same into lent memory: its length. Refused with 12 and the size too.
    pub fn row_into(&self, label: &[u8], ssrc: u32, jumped: u64, restarts: u64, out: &mut [u8]) -> Result<usize> {
        counted(header::write_row(label, ssrc, &self.0, jumped, restarts, out))
    }
}

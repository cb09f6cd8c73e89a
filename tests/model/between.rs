//! Document 02, L2: what came between two ECN reports, by document 01's rule in "Counting arrivals"; L4 and RFC 8083, section 5: which of the breaker's
//! calls a packet is for.
use crate::compound;
use crate::refusal::*;

pub const WORDS: usize = 3;
pub const KEPT_WORDS: usize = 4;
pub const CALL_WORDS: usize = 6;

/// What a report carries of a source: its highest number, the packets marked with CE and the packets lost.
#[derive(Clone, Copy, Debug, PartialEq)]
pub struct Carried {
    pub highest: u32,
    pub ce: u16,
    pub lost: u16,
}

/// The later counter minus the earlier one, modulo its width.
pub fn since(width: u32, later: u64, earlier: u64) -> u64 {
    (later + (1 << width) - earlier) % (1 << width)
}

/// The same of packets lost, read as signed.
pub fn lost_since(later: u16, earlier: u16) -> i64 {
    (i64::from(later) - i64::from(earlier) + 65_536 + 32_768) % 65_536 - 32_768
}

/// Lost (-32,768 to 32,767), marked and expected; 10 where the highest number went back.
pub fn between(later: &Carried, earlier: &Carried) -> Result<[u64; WORDS], Refusal> {
    let expected = since(32, later.highest.into(), earlier.highest.into());
    require(expected < 1 << 31, LIMITS)?;
    let marked = since(16, later.ce.into(), earlier.ce.into());
    Ok([lost_since(later.lost, earlier.lost) as u64, marked, expected])
}

/// What is kept of a receiver: 1 and the three numbers of its last ECN report, or four zeros.
pub fn kept_from_words(words: &[u64]) -> Result<Option<Carried>, Refusal> {
    match *words {
        [0, 0, 0, 0] => Ok(None),
        [1, highest, ce, lost] => carried(highest, ce, lost).map(Some),
        _ => Err(MALFORMED),
    }
}

pub fn kept_to_words(kept: Option<Carried>) -> [u64; KEPT_WORDS] {
    kept.map_or([0; KEPT_WORDS], |kept| [1, kept.highest.into(), kept.ce.into(), kept.lost.into()])
}

fn narrow<T: TryFrom<u64>>(word: u64) -> Result<T, Refusal> {
    T::try_from(word).map_err(|_| MALFORMED)
}

fn carried(highest: u64, ce: u64, lost: u64) -> Result<Carried, Refusal> {
    Ok(Carried { highest: narrow(highest)?, ce: narrow(ce)?, lost: narrow(lost)? })
}

/// What the call for a packet asks of it.
pub struct Packet {
    pub has_report_packet: bool,
    /// The fraction and the highest number of the report block.
    pub block: Option<(u8, u32)>,
    pub feedback: Option<Carried>,
    /// CE and lost of the summary entry.
    pub summary: Option<(u16, u16)>,
}

impl Packet {
    /// From the words of a compound; those of what is absent, and of other fields, are not looked at.
    pub fn from_words(words: &[u64]) -> Result<Packet, Refusal> {
        require(words.len() == compound::WORDS, MALFORMED)?;
        let there = |at: usize| require(words[at] <= 1, MALFORMED).map(|()| words[at] == 1);
        let block = if there(0)? { Some((narrow(words[1])?, narrow(words[3])?)) } else { None };
        let feedback = if there(7)? { Some(carried(words[9], words[12], words[14])?) } else { None };
        let summary = if there(16)? { Some((narrow(words[19])?, narrow(words[21])?)) } else { None };
        Ok(Packet { has_report_packet: there(23)?, block, feedback, summary })
    }

    /// The feedback, or else a summary entry with the highest number of the block.
    fn ecn_report(&self) -> Option<Carried> {
        let summed = self.block.zip(self.summary).map(|((_, highest), (ce, lost))| Carried { highest, ce, lost });
        self.feedback.or(summed)
    }

    /// The words of the call, 0 heard, 1 a report with a fraction, 2 a report with counts; and what is kept then.
    pub fn call(&self, kept: Option<Carried>) -> ([u64; CALL_WORDS], Option<Carried>) {
        if !self.has_report_packet {
            return ([0; CALL_WORDS], kept);
        }
        let new = self.ecn_report();
        let counts = new.zip(kept).and_then(|(later, earlier)| between(&later, &earlier).ok());
        let words = match (self.block, counts, new) {
            (Some((_, highest)), Some([lost, marked, expected]), _) => [2, highest.into(), 0, lost, marked, expected],
            (None, Some([lost, marked, expected]), Some(new)) => [2, new.highest.into(), 0, lost, marked, expected],
            (Some((fraction, highest)), None, _) => [1, highest.into(), fraction.into(), 0, 0, 0],
            (None, None, Some(new)) => [2, new.highest.into(), 0, 0, 0, 0],
            (None, _, None) => [0; CALL_WORDS],
        };
        (words, new.or(kept))
    }
}

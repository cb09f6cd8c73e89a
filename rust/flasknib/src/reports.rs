//! Compound RTCP: what a packet reports about a source, and what came between two reports.
use crate::header::{self, COMPOUND_WORDS, ECN_WORDS};
use crate::refusals::{accepted, Result};

/// Which compounds are taken.
#[derive(Clone, Copy, Debug, PartialEq, Eq)]
#[repr(u8)]
pub enum Profile {
    /// Those that begin with an SR or an RR (RFC 3550).
    Compound = header::PROFILE_COMPOUND as u8,
    /// Reduced-size ones too (RFC 5506).
    ReducedSize = header::PROFILE_REDUCED_SIZE as u8,
}

/// A report block of an SR or an RR.
#[derive(Clone, Copy, Debug, PartialEq, Eq)]
#[allow(missing_docs)]
pub struct ReportBlock {
    pub fraction: u8,
    pub lost: i64,
    pub highest: u32,
    pub jitter: u32,
    pub lsr: u32,
    pub dlsr: u32,
    /// The SSRC of who sent that SR or RR.
    pub reporter: u32,
}

/// An ECN feedback packet.
#[derive(Clone, Copy, Debug, PartialEq, Eq)]
#[allow(missing_docs)]
pub struct Feedback {
    pub sender: u32,
    pub highest: u32,
    pub ect0: u32,
    pub ect1: u32,
    pub ce: u16,
    pub not_ect: u16,
    pub lost: u16,
    pub duplicates: u16,
}

/// An entry of an ECN summary block of an XR packet.
#[derive(Clone, Copy, Debug, PartialEq, Eq)]
#[allow(missing_docs)]
pub struct Summary {
    pub ect0: u32,
    pub ect1: u32,
    pub ce: u16,
    pub not_ect: u16,
    pub lost: u16,
    pub duplicates: u16,
}

/// What came between two ECN reports.
#[derive(Clone, Copy, Debug, PartialEq, Eq)]
#[allow(missing_docs)]
pub struct Between {
    pub lost: i64,
    pub marked: u64,
    pub expected: u64,
}

/// What a compound reports about a source: the words that the reader gave.
#[derive(Clone, Debug, PartialEq, Eq)]
pub struct Compound(pub(crate) [u64; COMPOUND_WORDS]);

impl Compound {
    /// The words, as the header lays them out.
    pub fn words(&self) -> &[u64; COMPOUND_WORDS] {
        &self.0
    }

    /// Whether an SR or an RR is in it.
    pub fn sr_or_rr(&self) -> bool {
        self.0[header::COMPOUND_SR_OR_RR] != 0
    }

    /// Of whom the packet is: the SSRC of the report block's reporter, or else of the feedback's sender; `None` without either.
    pub fn receiver(&self) -> Option<u32> {
        self.report().map(|report| report.reporter).or(self.feedback().map(|feedback| feedback.sender))
    }

    /// The first report block about the source.
    pub fn report(&self) -> Option<ReportBlock> {
        let word = |place: usize| self.0[place];
        (word(header::COMPOUND_REPORT) != 0).then(|| ReportBlock {
            fraction: word(header::COMPOUND_REPORT_FRACTION) as u8,
            lost: word(header::COMPOUND_REPORT_LOST) as i64,
            highest: word(header::COMPOUND_REPORT_HIGHEST) as u32,
            jitter: word(header::COMPOUND_REPORT_JITTER) as u32,
            lsr: word(header::COMPOUND_REPORT_LSR) as u32,
            dlsr: word(header::COMPOUND_REPORT_DLSR) as u32,
            reporter: word(header::COMPOUND_REPORT_REPORTER) as u32,
        })
    }

    /// The first ECN feedback about the source.
    pub fn feedback(&self) -> Option<Feedback> {
        let word = |place: usize| self.0[place];
        (word(header::COMPOUND_FEEDBACK) != 0).then(|| Feedback {
            sender: word(header::COMPOUND_FEEDBACK_SENDER) as u32,
            highest: word(header::COMPOUND_FEEDBACK_HIGHEST) as u32,
            ect0: word(header::COMPOUND_FEEDBACK_ECT0) as u32,
            ect1: word(header::COMPOUND_FEEDBACK_ECT1) as u32,
            ce: word(header::COMPOUND_FEEDBACK_CE) as u16,
            not_ect: word(header::COMPOUND_FEEDBACK_NOT_ECT) as u16,
            lost: word(header::COMPOUND_FEEDBACK_LOST) as u16,
            duplicates: word(header::COMPOUND_FEEDBACK_DUPLICATES) as u16,
        })
    }

    /// The first ECN summary entry about the source.
    pub fn summary(&self) -> Option<Summary> {
        let word = |place: usize| self.0[place];
        (word(header::COMPOUND_SUMMARY) != 0).then(|| Summary {
            ect0: word(header::COMPOUND_SUMMARY_ECT0) as u32,
            ect1: word(header::COMPOUND_SUMMARY_ECT1) as u32,
            ce: word(header::COMPOUND_SUMMARY_CE) as u16,
            not_ect: word(header::COMPOUND_SUMMARY_NOT_ECT) as u16,
            lost: word(header::COMPOUND_SUMMARY_LOST) as u16,
            duplicates: word(header::COMPOUND_SUMMARY_DUPLICATES) as u16,
        })
    }
}

/// Reads a compound, the payload of one UDP packet, for what it reports about the SSRC `media`. Refused with 10 or 1 to 6; a fault
/// anywhere in it refuses all of it.
pub fn read_compound(packet: &[u8], media: u32, profile: Profile) -> Result<Compound> {
    let mut found = [0; COMPOUND_WORDS];
    accepted(header::read_compound(packet, media, profile as u8, &mut found))?;
    Ok(Compound(found))
}

/// What came between two ECN feedback packets of one receiver about one source. Refused with 10 if the highest number went back.
pub fn ecn_between(later: &Feedback, earlier: &Feedback) -> Result<Between> {
    let mut counts = [0; ECN_WORDS];
    accepted(header::ecn_between(later.highest, later.ce, later.lost, earlier.highest, earlier.ce, earlier.lost, &mut counts))?;
    let [lost, marked, expected] = [header::ECN_LOST, header::ECN_MARKED, header::ECN_EXPECTED].map(|place| counts[place]);
    Ok(Between { lost: lost as i64, marked, expected })
}

//! Document 01, "Refusal numbers", and those of document 02 that have landed.

/// A refusal other than 12. Its values are the constants below and no others: 12 is given by `put` with its size, or alone as `ROOM`.
#[derive(Clone, Copy, Debug, PartialEq)]
pub struct Refusal(u8);

impl Refusal {
    pub fn number(self) -> u8 {
        self.0
    }
}

pub const INCOMPLETE: Refusal = Refusal(1);
pub const VERSION: Refusal = Refusal(2);
pub const FIRST_PACKET: Refusal = Refusal(3);
pub const PACKET_SIZE: Refusal = Refusal(4);
pub const PADDING: Refusal = Refusal(5);
pub const BLOCK_SIZE: Refusal = Refusal(6);
pub const JUMP: Refusal = Refusal(7);
pub const FULL: Refusal = Refusal(8);
pub const MALFORMED: Refusal = Refusal(9);
pub const LIMITS: Refusal = Refusal(10);
pub const TIME: Refusal = Refusal(11);
pub const CHECKSUM: Refusal = Refusal(13);
pub const CONTENTS: Refusal = Refusal(14);
pub const PLACES: Refusal = Refusal(15);
pub const RULES: Refusal = Refusal(16);
pub const FORM_TWO: Refusal = Refusal(17);
pub const ATTRIBUTE: Refusal = Refusal(18);
pub const RETIRED: Refusal = Refusal(19);

/// The output is too small.
pub const ROOM: u8 = 12;

/// Nothing if `holds`, else the refusal.
pub fn require(holds: bool, refusal: Refusal) -> Result<(), Refusal> {
    if holds {
        Ok(())
    } else {
        Err(refusal)
    }
}

/// What each number means, as the header says.
const TEXTS: [&str; 19] = [
    "the input is empty, or ends in the middle of a block or a header",
    "the version in an RTCP header is not 2",
    "the first packet is no SR or RR",
    "a packet passes the end, or does not have its body's size",
    "the padding is wrong, or not in the last packet",
    "an XR block passes its packet",
    "the sequence number is too far from the highest: a jump",
    "2^48 arrivals are counted",
    "the record is malformed",
    "a number, a label, records or a size is outside the limits",
    "the time is earlier than a call before it allows",
    "the output is too small",
    "the block's checksum does not fit",
    "the block breaks the format, or has a wrong kind, form or SSRC for its place",
    "a source is new, and every place of the table is held (at most 16)",
    "the table breaks its rules, or has over 16 places",
    "a time of 2^32 ms or more needs form 2",
    "the attribute is malformed",
    "a new label has a retired byte, 10 or 13",
];

/// The text of a number; 10 for one that has none.
pub fn text(number: u8) -> Result<&'static str, Refusal> {
    usize::from(number).checked_sub(1).and_then(|i| TEXTS.get(i)).copied().ok_or(LIMITS)
}

/// What a writer answers.
#[derive(Clone, Copy, Debug, PartialEq)]
pub enum Written {
    Length(usize),
    /// 12, and the number of bytes that the call would have written.
    Room(usize),
    Refused(Refusal),
}

/// What every writer does with the bytes that it made, or the refusal of its values: all of them at the front of `out`, or none.
pub fn put(bytes: Result<impl AsRef<[u8]>, Refusal>, out: &mut [u8]) -> Written {
    match bytes.as_ref().map(AsRef::as_ref) {
        Err(&refusal) => Written::Refused(refusal),
        Ok(bytes) if bytes.len() > out.len() => Written::Room(bytes.len()),
        Ok(bytes) => {
            out[..bytes.len()].copy_from_slice(bytes);
            Written::Length(bytes.len())
        }
    }
}

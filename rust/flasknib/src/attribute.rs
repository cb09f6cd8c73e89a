//! The SDP attribute ecn-capable-rtp (RFC 6679, section 6.1): a line written, read and answered.
use crate::header::{
    self, ATTRIBUTE_ECT, ATTRIBUTE_METHODS, ATTRIBUTE_MODE, ATTRIBUTE_MOST_BYTES, ATTRIBUTE_MOST_METHODS, ATTRIBUTE_USED, ATTRIBUTE_WORDS,
};
use crate::refusals::{accepted, written, Result};

/// How the two sites find out that ECN works.
#[derive(Clone, Copy, Debug, PartialEq, Eq)]
#[allow(missing_docs)]
pub enum Method {
    Rtp = header::METHOD_RTP as isize,
    Ice = header::METHOD_ICE as isize,
    Leap = header::METHOD_LEAP as isize,
}

/// What a site can do with marks; an absent mode means `SetRead`.
#[derive(Clone, Copy, Debug, Default, PartialEq, Eq)]
#[allow(missing_docs)]
pub enum Mode {
    #[default]
    Absent = header::MODE_ABSENT as isize,
    SetOnly = header::MODE_SETONLY as isize,
    ReadOnly = header::MODE_READONLY as isize,
    SetRead = header::MODE_SETREAD as isize,
}

/// Which mark a site wants to be sent; an absent one means `Zero`.
#[derive(Clone, Copy, Debug, Default, PartialEq, Eq)]
#[allow(missing_docs)]
pub enum Ect {
    #[default]
    Absent = header::ECT_ABSENT as isize,
    One = header::ECT_ONE as isize,
    Zero = header::ECT_ZERO as isize,
    Random = header::ECT_RANDOM as isize,
}

/// What a line says: the methods, most wanted first, the mode and the ect.
#[derive(Clone, Debug, PartialEq, Eq)]
#[allow(missing_docs)]
pub struct Attribute {
    pub methods: Vec<Method>,
    pub mode: Mode,
    pub ect: Ect,
}

impl Attribute {
    /// The words. Methods that have no place are counted all the same, and the library refuses their number.
    fn words(&self) -> [u64; ATTRIBUTE_WORDS] {
        let mut words = [0; ATTRIBUTE_WORDS];
        for (place, &method) in self.methods.iter().take(ATTRIBUTE_MOST_METHODS).enumerate() {
            words[ATTRIBUTE_METHODS + place] = method as u64;
        }
        words[ATTRIBUTE_USED] = self.methods.len() as u64;
        words[ATTRIBUTE_MODE] = self.mode as u64;
        words[ATTRIBUTE_ECT] = self.ect as u64;
        words
    }

    /// Of words that the library gave.
    fn of(words: &[u64; ATTRIBUTE_WORDS]) -> Attribute {
        let method = |&word: &u64| match word as usize {
            header::METHOD_RTP => Method::Rtp,
            header::METHOD_ICE => Method::Ice,
            _ => Method::Leap,
        };
        let mode = match words[ATTRIBUTE_MODE] as usize {
            header::MODE_ABSENT => Mode::Absent,
            header::MODE_SETONLY => Mode::SetOnly,
            header::MODE_READONLY => Mode::ReadOnly,
            _ => Mode::SetRead,
        };
        let ect = match words[ATTRIBUTE_ECT] as usize {
            header::ECT_ABSENT => Ect::Absent,
            header::ECT_ONE => Ect::One,
            header::ECT_ZERO => Ect::Zero,
            _ => Ect::Random,
        };
        let used = words[ATTRIBUTE_USED] as usize;
        Attribute { methods: words[ATTRIBUTE_METHODS..ATTRIBUTE_METHODS + used].iter().map(method).collect(), mode, ect }
    }

    /// The line, in lower case and with no CR LF: that of our offer. Refused with 10 for no method or over 8.
    pub fn line(&self) -> Result<Vec<u8>> {
        written(ATTRIBUTE_MOST_BYTES, |out| header::write_attribute(&self.words(), out))
    }
}

/// Reads a line from `a=` to before its CR LF. Refused with 18 for a line that is not well formed, and with 10 for one that is too long.
pub fn read_attribute(line: &[u8]) -> Result<Attribute> {
    let mut found = [0; ATTRIBUTE_WORDS];
    accepted(header::read_attribute(line, &mut found))?;
    Ok(Attribute::of(&found))
}

/// Answers an offer by what we would offer ourselves: the first of our methods that the offer names, our mode and our ect. None if it is
/// left out of the answer. Refused with 10 for over 8 methods.
pub fn answer(offer: &Attribute, ours: &Attribute) -> Result<Option<Attribute>> {
    let mut found = [0; ATTRIBUTE_WORDS];
    let outcome = header::answer(&offer.words(), &ours.words(), &mut found);
    if usize::from(outcome) == header::LEFT_OUT {
        return Ok(None);
    }
    accepted(outcome)?;
    Ok(Some(Attribute::of(&found)))
}

//! Refusals: one error, with what is refused.
use crate::header::{Refusal, REFUSALS, REFUSAL_ROOM};
use std::fmt;

/// The library refuses a call, and has changed nothing.
#[derive(Clone, Copy, Debug, PartialEq, Eq)]
pub struct Refused {
    /// What is wrong.
    pub refusal: Refusal,
    /// Of [`Refusal::Room`] the bytes that the call would write.
    pub size: Option<usize>,
    /// The block of a trace that is refused, counted from 0.
    pub block: Option<u64>,
}

/// What a call gives, or its refusal.
pub type Result<T> = std::result::Result<T, Refused>;

impl Refusal {
    /// The refusal with this number.
    pub fn of(number: u8) -> Option<Refusal> {
        REFUSALS.iter().map(|&(refusal, _, _)| refusal).find(|refusal| refusal.number() == number)
    }

    /// Its number, as in a table's line `refused N block I`.
    pub fn number(self) -> u8 {
        self as u8
    }

    fn told(self) -> (&'static str, &'static str) {
        REFUSALS.iter().find(|each| each.0 == self).map_or(("", ""), |each| (each.1, each.2))
    }

    /// Its name in the header.
    pub fn name(self) -> &'static str {
        self.told().0
    }

    /// What is wrong, in words.
    pub fn text(self) -> &'static str {
        self.told().1
    }
}

impl fmt::Display for Refusal {
    fn fmt(&self, out: &mut fmt::Formatter) -> fmt::Result {
        write!(out, "{}: {}", self.number(), self.text())
    }
}

impl std::error::Error for Refusal {}

impl From<Refusal> for Refused {
    fn from(refusal: Refusal) -> Refused {
        Refused { refusal, size: None, block: None }
    }
}

impl Refused {
    /// The refusal with this number, which the library gave.
    pub(crate) fn of(number: u8) -> Refused {
        Refusal::of(number).expect("the library gives the refusals of its header").into()
    }

    /// The same, of a block of a trace.
    pub(crate) fn at(self, block: u64) -> Refused {
        Refused { block: Some(block), ..self }
    }
}

impl fmt::Display for Refused {
    fn fmt(&self, out: &mut fmt::Formatter) -> fmt::Result {
        write!(out, "refused {}", self.refusal.number())?;
        if let Some(block) = self.block {
            write!(out, " block {block}")?;
        }
        write!(out, ": {}", self.refusal.text())?;
        self.size.map_or(Ok(()), |size| write!(out, " ({size} bytes are needed)"))
    }
}

impl std::error::Error for Refused {}

/// What a call that fills words answers: 0, or its refusal.
pub(crate) fn accepted(answer: u8) -> Result<()> {
    if answer == 0 {
        Ok(())
    } else {
        Err(Refused::of(answer))
    }
}

/// (refusal, size) of a negative answer of a writer, which is minus (256 * size + refusal).
pub(crate) fn taken_apart(answer: i64) -> (u8, usize) {
    ((-answer % 256) as u8, (-answer / 256) as usize)
}

/// What a writer answers: the length; or it is refused, with [`Refusal::Room`] and the size that it needs.
pub(crate) fn counted(answer: i64) -> Result<usize> {
    if answer >= 0 {
        return Ok(answer as usize);
    }
    let (number, size) = taken_apart(answer);
    let refused = Refused::of(number);
    Err(if usize::from(number) == REFUSAL_ROOM { Refused { size: Some(size), ..refused } } else { refused })
}

/// What a writer writes of at most so many bytes.
pub(crate) fn written(most: usize, write: impl FnOnce(&mut [u8]) -> i64) -> Result<Vec<u8>> {
    let mut out = vec![0; most];
    let length = counted(write(&mut out))?;
    out.truncate(length);
    Ok(out)
}

/// What a writer of just so many bytes writes.
pub(crate) fn fixed<const SIZE: usize>(write: impl FnOnce(&mut [u8]) -> i64) -> Result<[u8; SIZE]> {
    let mut out = [0; SIZE];
    counted(write(&mut out))?;
    Ok(out)
}

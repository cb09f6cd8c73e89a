//! Document 02, L11: the whole run of ecnsalvage over a trace.
use crate::refusal::*;
use crate::trace::{blocks, later, refused, zeroth, Form, Label, BLOCK};

/// What becomes of a trace: the numbers of the blocks that are copied, and the others with their refusals. After a wrong label nothing is looked at.
pub struct Left {
    pub copied: Vec<usize>,
    pub listed: Vec<(Refusal, usize)>,
}

pub fn left(trace: &[u8]) -> Left {
    let mut left = Left { copied: Vec::new(), listed: Vec::new() };
    let mut label = None;
    for (index, block) in blocks(trace).into_iter().enumerate() {
        let taken = match &label {
            None => zeroth(block).map(|found| label = Some(found)),
            Some(label) => later(label, block).map(drop),
        };
        match taken {
            Ok(()) => left.copied.push(index),
            Err(refusal) => left.listed.push((refusal, index)),
        }
        if label.is_none() {
            break;
        }
    }
    left
}

/// The standard output and the standard error of ecnsalvage.
pub fn salvaged(trace: &[u8]) -> (Vec<u8>, Vec<u8>) {
    let Left { copied, listed } = left(trace);
    let block = |index: usize| &trace[BLOCK * index..BLOCK * (index + 1)];
    (copied.into_iter().flat_map(block).copied().collect(), listed.into_iter().flat_map(|(refusal, index)| refused(refusal, index)).collect())
}

/// Whether a block holds arrivals of a form and an SSRC: 10 for another form than the two, then 1, 13, 14.
pub fn read_own(form: u8, ssrc: u32, block: &[u8]) -> Result<(), Refusal> {
    let form = Form::from_number(form)?;
    later(&Label { form, ssrc, text: Vec::new() }, block).map(drop)
}

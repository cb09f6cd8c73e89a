//! Document 02, L14: bytes 10 and 13 of a label are retired. The writer of a new label, block 0 with a space in the place of each, and the whole run of
//! ecnlabel over a trace.
use crate::refusal::*;
use crate::trace::{blocks, is_label, label_block, later, refused, zeroth, Form, Label};

pub fn is_retired(byte: u8) -> bool {
    byte == 10 || byte == 13
}

/// The block of a new label: 10, then 19.
pub fn new_label_block(form: Form, label: &[u8], ssrc: u32) -> Result<Vec<u8>, Refusal> {
    require(is_label(label), LIMITS)?;
    require(!label.iter().any(|&byte| is_retired(byte)), RETIRED)?;
    label_block(form, label, ssrc)
}

/// Block 0 with one space in the place of each retired byte, and the number of them.
pub fn spaced(block: &[u8]) -> Result<(Vec<u8>, usize), Refusal> {
    let Label { form, ssrc, text } = zeroth(block)?;
    let label: Vec<u8> = text.iter().map(|&byte| if is_retired(byte) { b' ' } else { byte }).collect();
    let replaced = text.iter().zip(&label).filter(|(old, new)| old != new).count();
    Ok((label_block(form, &label, ssrc)?, replaced))
}

/// The standard output and the standard error of ecnlabel.
pub fn labelled(trace: &[u8]) -> (Vec<u8>, Vec<u8>) {
    let blocks = blocks(trace);
    let (mut out, replaced) = match spaced(blocks[0]) {
        Ok(spaced) => spaced,
        Err(refusal) => return (Vec::new(), refused(refusal, 0)),
    };
    let label = zeroth(blocks[0]).unwrap();
    for (index, block) in blocks.iter().enumerate().skip(1) {
        if let Err(refusal) = later(&label, block) {
            return (out, refused(refusal, index));
        }
        out.extend(*block);
    }
    (out, format!("{replaced}\r\n").into_bytes())
}

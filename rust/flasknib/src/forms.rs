//! A trace in the other form.
use crate::header::{self, BLOCK_BYTES, FORMS_PART_BYTES, FORMS_WORDS};
use crate::refusals::{counted, written, Result};

/// A run of ecnforms: it begins with block 0, takes the later blocks one by one, and gives the blocks of the other form.
#[derive(Clone, Debug)]
pub struct Forms {
    words: [u64; FORMS_WORDS],
    part: [u8; FORMS_PART_BYTES],
}

impl Forms {
    /// Takes block 0, and gives it in the other form. Refused with 1, 13 or 14.
    pub fn start(zeroth: &[u8]) -> Result<(Forms, [u8; BLOCK_BYTES])> {
        let (mut words, mut label) = ([0; FORMS_WORDS], [0; BLOCK_BYTES]);
        counted(header::forms_start(zeroth, &mut words, &mut label))?;
        Ok((Forms { words, part: [0; FORMS_PART_BYTES] }, label))
    }

    /// Takes a later block, and gives the blocks that are full with its records, 0 to 2 of them. Refused with 1, 13, 14, or 17 for a time
    /// that only form 2 has bytes for.
    pub fn block(&mut self, block: &[u8]) -> Result<Vec<u8>> {
        written(2 * BLOCK_BYTES, |out| header::forms_block(&mut self.words, &mut self.part, block, out))
    }

    /// The last block, of the records that are held, or nothing.
    pub fn close(&self) -> Result<Vec<u8>> {
        written(BLOCK_BYTES, |out| header::forms_close(&self.words, &self.part, out))
    }
}

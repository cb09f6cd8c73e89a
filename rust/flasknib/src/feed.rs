//! A trace that arrives bit by bit, and its table.
use crate::header::{self, BLOCK_BYTES, HEAD_BYTES, REFUSED_MOST_BYTES, ROW_MOST_BYTES, UPLOAD_KEPT_BYTES, UPLOAD_WORDS};
use crate::refusals::{accepted, taken_apart, written, Result};

/// Bytes that are taken at a time.
const STRETCH: usize = 128 * BLOCK_BYTES;

/// The head line of a table, ended by CR LF.
pub fn head_line() -> [u8; HEAD_BYTES] {
    let mut out = [0; HEAD_BYTES];
    header::write_head(&mut out);
    out
}

/// The last line of the table of a trace of which a block is refused.
pub fn refused_line(number: u8, block: u64) -> Vec<u8> {
    written(REFUSED_MOST_BYTES, |out| header::write_refused(number, block, out)).unwrap_or_default()
}

/// A trace that arrives in stretches of any length, down to one byte. However it is cut, the rows are those that ecntable prints.
#[derive(Clone, Debug, PartialEq, Eq)]
pub struct Feed {
    words: [u64; UPLOAD_WORDS],
    kept: [u8; UPLOAD_KEPT_BYTES],
}

impl Default for Feed {
    fn default() -> Feed {
        Feed { words: [0; UPLOAD_WORDS], kept: [0; UPLOAD_KEPT_BYTES] }
    }
}

impl Feed {
    /// The feed with these words and these bytes kept.
    pub fn of(words: [u64; UPLOAD_WORDS], kept: [u8; UPLOAD_KEPT_BYTES]) -> Feed {
        Feed { words, kept }
    }

    /// Its words.
    pub fn words(&self) -> &[u64; UPLOAD_WORDS] {
        &self.words
    }

    /// What is kept beside them: block 0, and what has come of the next block.
    pub fn kept(&self) -> &[u8; UPLOAD_KEPT_BYTES] {
        &self.kept
    }

    /// The whole blocks taken.
    pub fn blocks(&self) -> u64 {
        self.words[header::UPLOAD_BLOCKS]
    }

    /// Takes a stretch, and puts the rows of the blocks that it completes behind what `table` holds; those before a refused block too.
    /// Refused with 13 or 14 for a block; with a refusal that is kept; or with 9 or 10.
    pub fn feed(&mut self, stretch: &[u8], table: &mut Vec<u8>) -> Result<()> {
        if stretch.is_empty() {
            return self.part(stretch, table);
        }
        stretch.chunks(STRETCH).try_for_each(|part| self.part(part, table))
    }

    fn part(&mut self, part: &[u8], table: &mut Vec<u8>) -> Result<()> {
        let held = table.len();
        table.resize(held + ROW_MOST_BYTES * part.len().div_ceil(BLOCK_BYTES), 0); // at most so many blocks are completed
        let answer = header::feed(&mut self.words, &mut self.kept, part, &mut table[held..]);
        let (number, length) = if answer < 0 { taken_apart(answer) } else { (0, answer as usize) };
        table.truncate(held + length);
        self.ended(number)
    }

    /// The refusal with this number, 0 for none; that of a block, which is kept, with the block. 9 comes first, and is never kept.
    fn ended(&self, number: u8) -> Result<()> {
        let kept = u64::from(number) == self.words[header::UPLOAD_REFUSAL] && usize::from(number) != header::REFUSAL_MALFORMED;
        accepted(number).map_err(|refused| if kept { refused.at(self.blocks()) } else { refused })
    }

    /// Ends the trace, or asks how it would end here. Refused with 1 if it ends in the middle of a block or is empty, or with the refusal
    /// that is kept. If nothing is refused nothing has changed, and feeding may go on.
    pub fn close(&mut self) -> Result<()> {
        let number = header::feed_close(&mut self.words, &self.kept);
        self.ended(number)
    }
}

//! A trace whose blocks are of several sources, and the row of each.
use crate::header::{self, BLOCK_BYTES, LINE_WORDS, ROW_MOST_BYTES, STREAMS_MOST_LINES, STREAMS_WORDS};
use crate::refusals::{accepted, written, Result};

/// A run of ecnstreams: it begins with block 0, takes the later blocks one by one, and gives a row for each source.
#[derive(Clone, Debug)]
pub struct Streams {
    words: [u64; STREAMS_WORDS],
    lines: [u64; STREAMS_MOST_LINES * LINE_WORDS],
    zeroth: [u8; BLOCK_BYTES],
}

impl Streams {
    /// Takes block 0. Refused with 1, 13 or 14.
    pub fn start(zeroth: &[u8]) -> Result<Streams> {
        let mut words = [0; STREAMS_WORDS];
        accepted(header::streams_start(zeroth, &mut words))?;
        let mut kept = [0; BLOCK_BYTES];
        kept.copy_from_slice(zeroth); // what is not refused has this length
        Ok(Streams { words, lines: [0; STREAMS_MOST_LINES * LINE_WORDS], zeroth: kept })
    }

    /// Counts a later block. Refused with 1, 13, 14, or 15 for a seventeenth source.
    pub fn block(&mut self, block: &[u8]) -> Result<()> {
        accepted(header::streams_block(&mut self.words, &mut self.lines, block))
    }

    /// How many sources there are.
    pub fn held(&self) -> usize {
        self.words[header::STREAMS_HELD] as usize
    }

    /// The rows of all sources, each ended by CR LF, in rising order of SSRC.
    pub fn table(&self) -> Result<Vec<u8>> {
        let row = |i| written(ROW_MOST_BYTES, |out| header::streams_row(&self.words, i, &self.lines, &self.zeroth, out));
        Ok((0..self.held()).map(row).collect::<Result<Vec<_>>>()?.concat())
    }
}

//! Document 02, L7: a trace that arrives bit by bit, over the run of ecntable. What a feed keeps between two calls, as the library lends it, and the calls.
use crate::converter::{self, Run};
use crate::refusal::*;
use crate::trace::{zeroth, BLOCK};

/// The run's words, the whole blocks taken, the bytes kept and the kept refusal.
pub const WORDS: usize = converter::WORDS + 3;
/// Block 0, and then the place of the next block, of which a part is kept.
pub const LENT: usize = 2 * BLOCK;
/// The most bytes that are taken in all.
pub const MOST_BYTES: u128 = 1 << 48;
/// A refusal that is kept is one of these.
pub const KEPT: [Refusal; 3] = [INCOMPLETE, CHECKSUM, CONTENTS];

/// Fresh by default. Block 0 has no bytes while no block is taken.
#[derive(Default)]
pub struct Feed {
    pub run: Run,
    pub zeroth: Vec<u8>,
    pub blocks: u64,
    pub kept: Vec<u8>,
    pub refusal: Option<Refusal>,
}

impl Feed {
    /// The rows of the blocks that a stretch completes, up to the first refused one: the kept refusal, 10. A block's own refusal is kept and is no error here:
    /// its rows are written.
    pub fn take(&mut self, stretch: &[u8]) -> Result<Vec<u8>, Refusal> {
        self.goes_on()?;
        let taken = BLOCK as u128 * u128::from(self.blocks) + self.kept.len() as u128;
        require(taken + stretch.len() as u128 <= MOST_BYTES, LIMITS)?;
        let bytes = [&self.kept, stretch].concat();
        let (blocks, rest) = bytes.split_at(bytes.len() - bytes.len() % BLOCK);
        let mut rows = Vec::new();
        self.kept.clear();
        for block in blocks.chunks(BLOCK) {
            match self.run.block(block) {
                Ok(true) => rows.extend(self.run.row()),
                Ok(false) => self.zeroth = block.to_vec(),
                Err(refusal) => {
                    self.refusal = Some(refusal);
                    return Ok(rows);
                }
            }
            self.blocks += 1;
        }
        self.kept.extend(rest);
        Ok(rows)
    }

    /// The end of the trace: the kept refusal, 1.
    pub fn close(&mut self) -> Result<(), Refusal> {
        self.goes_on()?;
        if self.blocks == 0 || !self.kept.is_empty() {
            self.refusal = Some(INCOMPLETE);
        }
        self.goes_on()
    }

    fn goes_on(&self) -> Result<(), Refusal> {
        self.refusal.map_or(Ok(()), Err)
    }

    /// While no block is taken the run's words are zero.
    pub fn to_words(&self) -> [u64; WORDS] {
        let mut words = [0; WORDS];
        if self.blocks > 0 {
            words[..converter::WORDS].copy_from_slice(&self.run.to_words());
        }
        let refusal = self.refusal.map_or(0, Refusal::number);
        words[converter::WORDS..].copy_from_slice(&[self.blocks, self.kept.len() as u64, refusal.into()]);
        words
    }

    /// The first 1,024 lent bytes, with zeros in the places that are not in use.
    pub fn keep(&self, lent: &mut [u8]) {
        lent[..LENT].fill(0);
        lent[..self.zeroth.len()].copy_from_slice(&self.zeroth);
        lent[BLOCK..BLOCK + self.kept.len()].copy_from_slice(&self.kept);
    }

    /// 9 where the words or the lent bytes are no feed's.
    pub fn from_words(words: &[u64], lent: &[u8]) -> Result<Feed, Refusal> {
        require(words.len() == WORDS && lent.len() >= LENT, MALFORMED)?;
        let (run, counts) = words.split_at(converter::WORDS);
        let (first, part) = lent[..LENT].split_at(BLOCK);
        let (blocks, kept) = (counts[0], counts[1]);
        require(kept < BLOCK as u64 && BLOCK as u128 * u128::from(blocks) + u128::from(kept) <= MOST_BYTES, MALFORMED)?;
        let refusal = KEPT.into_iter().find(|refusal| u64::from(refusal.number()) == counts[2]);
        require(refusal.is_some() || counts[2] == 0, MALFORMED)?;
        let (kept, unused) = part.split_at(kept as usize);
        require(unused.iter().all(|&byte| byte == 0), MALFORMED)?;
        let kept = kept.to_vec();
        if blocks == 0 {
            let unused = run.iter().all(|&word| word == 0) && first.iter().all(|&byte| byte == 0);
            require(unused, MALFORMED)?;
            return Ok(Feed { kept, refusal, ..Feed::default() });
        }
        zeroth(first).map_err(|_| MALFORMED)?;
        Ok(Feed { run: Run::from_words(run, first)?, zeroth: first.to_vec(), blocks, kept, refusal })
    }
}

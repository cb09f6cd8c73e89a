//! Several RTP sources in one table, and the compound with the feedback of all of them.
use crate::header::{self, Refusal, PLACE_SOURCE, PLACE_SSRC, PLACE_WORDS, SOURCES_COMPOUND_MOST_BYTES, SOURCES_MOST_PLACES, SOURCE_WORDS};
use crate::refusals::{accepted, counted, written, Result};
use crate::source::{arrival, block_counted, Arrival, Counted, Source};

/// A table of 0 to 16 sources, by SSRC.
#[derive(Clone, Debug, PartialEq, Eq)]
pub struct Sources(Vec<u64>);

impl Default for Sources {
    fn default() -> Sources {
        Sources::new(SOURCES_MOST_PLACES)
    }
}

impl Sources {
    /// A table without a source. One of more than 16 places is refused by every call.
    pub fn new(places: usize) -> Sources {
        Sources(vec![0; places * PLACE_WORDS])
    }

    /// The table with these words.
    pub fn of(words: &[u64]) -> Sources {
        Sources(words.to_vec())
    }

    /// Its words.
    pub fn words(&self) -> &[u64] {
        &self.0
    }

    /// Counts a packet of the source `ssrc`, as [`Source::arrive`] does. Refused with 16, 9, 10, 15 or 8.
    pub fn arrive(&mut self, ssrc: u32, wire: u16, mark: impl Into<u8>) -> Result<Arrival> {
        arrival(header::sources_arrive(&mut self.0, ssrc, wire, mark.into()))
    }

    /// Counts the records of a block of the source `ssrc`. Refused with 16, 9, 10 or 15.
    pub fn count_block(&mut self, ssrc: u32, records: &[u8], width: usize) -> Result<Counted> {
        block_counted(header::sources_count_block(&mut self.0, ssrc, records, width))
    }

    /// The compound of an RR and one ECN feedback packet for each source, in order of SSRC. Refused with 16 or 9.
    pub fn compound(&self, sender: u32) -> Result<Vec<u8>> {
        written(SOURCES_COMPOUND_MOST_BYTES, |out| header::sources_write_compound(&self.0, sender, out))
    }

    /// The SSRC at a place that is held, counted from 0, and a copy of its source. Refused with 16, 9 or 10.
    pub fn place(&self, place: usize) -> Result<(u32, Source)> {
        let mut found = [0; PLACE_WORDS];
        accepted(header::sources_place(&self.0, place, &mut found))?;
        let mut words = [0; SOURCE_WORDS];
        words.copy_from_slice(&found[PLACE_SOURCE..]);
        Ok((found[PLACE_SSRC] as u32, Source(words)))
    }

    /// How many sources there are. Refused with 16 or 9.
    pub fn held(&self) -> Result<usize> {
        counted(header::sources_held(&self.0))
    }

    /// All sources, in rising order of SSRC. Refused with 16 or 9.
    pub fn all(&self) -> Result<Vec<(u32, Source)>> {
        let mut found = vec![];
        for place in 0..self.0.len() / PLACE_WORDS {
            match self.place(place) {
                Ok(each) => found.push(each),
                Err(refused) if refused.refusal == Refusal::Limits => break,
                Err(refused) => return Err(refused),
            }
        }
        Ok(found)
    }
}

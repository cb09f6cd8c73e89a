//! Document 02, L1: several sources in one table, here a sorted map of their records, and the whole run of ecnstreams over a trace.
use crate::bytes::u16_at;
use crate::converter::Totals;
use crate::refusal::*;
use crate::report::feedback;
use crate::source::{count_block, Counted, Source, MOST_ARRIVALS, WORDS};
use crate::table::HEAD;
use crate::trace::{blocks, is_label, of_form, refused, zeroth, Form, Label, BLOCK, BODY};
use std::collections::BTreeMap;

/// A place in words: the SSRC and the record.
pub const PLACE: usize = 1 + WORDS;
pub const MOST_PLACES: usize = 16;

#[derive(Clone, Debug, PartialEq)]
pub struct Table {
    places: usize,
    sources: BTreeMap<u32, Source>,
}

impl Table {
    /// 16 for anything but held places in rising order of SSRC and then zeros; then 9 for a record among them.
    pub fn from_words(words: &[u64]) -> Result<Table, Refusal> {
        let places = words.len() / PLACE;
        require(words.len() % PLACE == 0 && places <= MOST_PLACES, RULES)?;
        let (held, unused) = words.split_at(PLACE * words.chunks(PLACE).take_while(|place| is_held(place)).count());
        require(unused.iter().all(|&word| word == 0), RULES)?;
        let ssrcs: Vec<u64> = held.chunks(PLACE).map(|place| place[0]).collect();
        require(ssrcs.is_sorted_by(|one, next| one < next) && ssrcs.iter().all(|&ssrc| ssrc < 1 << 32), RULES)?;
        let sources = held.chunks(PLACE).map(|place| Ok((place[0] as u32, Source::from_words(&place[1..])?)));
        Ok(Table { places, sources: sources.collect::<Result<_, Refusal>>()? })
    }

    pub fn to_words(&self) -> Vec<u64> {
        let mut words: Vec<u64> = self.sources.iter().flat_map(|(&ssrc, source)| place(ssrc, source)).collect();
        words.resize(PLACE * self.places, 0);
        words
    }

    /// What is left of the order 16, 9, 10, 15, 8, 7; 7 alone changes the table.
    pub fn arrive(&mut self, ssrc: u32, wire: u16, mark: u8) -> Result<Counted, Refusal> {
        require(mark <= 3, LIMITS)?;
        self.seat(ssrc)?;
        self.sources.entry(ssrc).or_default().arrive(wire, mark)
    }

    /// What is left of the order 16, 9, 10, 15. Gives the jumps and the restarts.
    pub fn count_block(&mut self, ssrc: u32, records: &[u8], width: usize) -> Result<(u64, u64), Refusal> {
        let before = self.sources.get(&ssrc).cloned().unwrap_or_default();
        let (source, jumps, restarts) = count_block(&before.to_words(), records, width)?;
        self.seat(ssrc)?;
        self.sources.insert(ssrc, source);
        Ok((jumps, restarts))
    }

    fn seat(&self, ssrc: u32) -> Result<(), Refusal> {
        require(self.sources.contains_key(&ssrc) || self.sources.len() < self.places, PLACES)
    }

    /// RFC 3550, section 6.4.2: an RR without report blocks; behind it the feedback of each source.
    pub fn compound(&self, sender: u32) -> Vec<u8> {
        let mut compound = vec![128, 201, 0, 1];
        compound.extend(sender.to_be_bytes());
        self.sources.iter().for_each(|(&ssrc, source)| compound.extend(feedback(source, sender, ssrc)));
        compound
    }

    /// How many places are held.
    pub fn held(&self) -> usize {
        self.sources.len()
    }

    /// The words of a held place.
    pub fn place(&self, index: usize) -> Result<Vec<u64>, Refusal> {
        self.sources.iter().nth(index).map(|(&ssrc, source)| place(ssrc, source)).ok_or(LIMITS)
    }
}

fn place(ssrc: u32, source: &Source) -> Vec<u64> {
    [&[u64::from(ssrc)][..], &source.to_words()].concat()
}

/// Some mark is counted.
fn is_held(place: &[u64]) -> bool {
    place[3..7].iter().any(|&count| count > 0)
}

/// The standard output of ecnstreams: rows come after the last block, if none was refused.
pub fn table(trace: &[u8]) -> Vec<u8> {
    let lines = match counted(trace) {
        Ok((text, streams)) => streams.iter().flat_map(|(&ssrc, totals)| totals.row(&text, ssrc)).collect(),
        Err((refusal, index)) => refused(refusal, index),
    };
    [HEAD, &lines].concat()
}

/// The label and the totals by SSRC, or the first refused block.
fn counted(trace: &[u8]) -> Result<(Vec<u8>, BTreeMap<u32, Totals>), (Refusal, usize)> {
    let blocks = blocks(trace);
    let label = zeroth(blocks[0]).map_err(|refusal| (refusal, 0))?;
    let mut streams = BTreeMap::<u32, Totals>::new();
    for (index, block) in blocks.iter().enumerate().skip(1) {
        let at = |refusal| (refusal, index);
        let (ssrc, records) = of_form(label.form, block).map_err(at)?;
        require(streams.contains_key(&ssrc) || streams.len() < MOST_PLACES, PLACES).map_err(at)?;
        streams.entry(ssrc).or_default().take(&records);
    }
    Ok((label.text, streams))
}

// ---- a run as the library lends it: its words, and the lines with each call

pub const RUN_WORDS: usize = 3;
/// A line in words: the SSRC, the record, jumped and restarts.
pub const LINE: usize = 3 + WORDS;
pub const LINE_WORDS: usize = MOST_PLACES * LINE;

/// A trace's form, the length of its label, and the totals by SSRC.
pub struct Run {
    form: Form,
    length: u64,
    lines: BTreeMap<u32, Totals>,
}

impl Run {
    pub fn start(block: &[u8]) -> Result<Run, Refusal> {
        let Label { form, text, .. } = zeroth(block)?;
        Ok(Run { form, length: text.len() as u64, lines: BTreeMap::new() })
    }

    /// 9 for another number of words, too few words of lines or over 16 held; 16 for held lines against the table's rules; then 9 for the rest.
    pub fn from_words(words: &[u64], lines: &[u64]) -> Result<Run, Refusal> {
        let &[number, length, held] = words else { return Err(MALFORMED) };
        require(lines.len() >= LINE_WORDS && held <= MOST_PLACES as u64, MALFORMED)?;
        let held = &lines[..LINE * held as usize];
        require(held.chunks(LINE).is_sorted_by(|one, next| one[0] < next[0]) && held.chunks(LINE).all(is_held), RULES)?;
        let form = u8::try_from(number).ok().and_then(|number| Form::from_number(number).ok()).ok_or(MALFORMED)?;
        require(length <= BODY as u64, MALFORMED)?;
        Ok(Run { form, length, lines: held.chunks(LINE).map(line).collect::<Result<_, Refusal>>()? })
    }

    pub fn to_words(&self) -> [u64; RUN_WORDS] {
        [self.form as u64 + 1, self.length, self.lines.len() as u64]
    }

    /// Puts the lines at the front of the lent words.
    pub fn keep(&self, lines: &mut [u64]) {
        lines.chunks_mut(LINE).zip(&self.lines).for_each(|(place, (&ssrc, totals))| place.copy_from_slice(&in_words(ssrc, totals)));
    }

    /// The block's refusal, then 15.
    pub fn take(&mut self, block: &[u8]) -> Result<(), Refusal> {
        let (ssrc, records) = of_form(self.form, block)?;
        require(self.lines.contains_key(&ssrc) || self.lines.len() < MOST_PLACES, PLACES)?;
        self.lines.entry(ssrc).or_default().take(&records);
        Ok(())
    }

    /// 9 for a block 0 that is not the run's own, then 10 for no such line.
    pub fn row(&self, index: usize, zeroth: &[u8]) -> Result<Vec<u8>, Refusal> {
        require(zeroth.len() == BLOCK && u16_at(zeroth, 0) == self.form.kinds().0 && u64::from(u16_at(zeroth, 2)) == self.length, MALFORMED)?;
        let text = &zeroth[8..8 + self.length as usize];
        require(is_label(text), MALFORMED)?;
        let (&ssrc, totals) = self.lines.iter().nth(index).ok_or(LIMITS)?;
        Ok(totals.row(text, ssrc))
    }
}

fn line(words: &[u64]) -> Result<(u32, Totals), Refusal> {
    let (jumped, restarts) = (words[11], words[12]);
    require(words[0] < 1 << 32 && jumped.max(restarts) <= MOST_ARRIVALS, MALFORMED)?;
    Ok((words[0] as u32, Totals { source: Source::from_words(&words[1..11])?, jumped, restarts }))
}

fn in_words(ssrc: u32, totals: &Totals) -> Vec<u64> {
    [&place(ssrc, &totals.source)[..], &[totals.jumped, totals.restarts]].concat()
}

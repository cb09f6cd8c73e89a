//! A trace that is read: its rows as values, and what is left of a damaged one.
use crate::header::{self, BLOCK_BYTES, ROW_MOST_BYTES, RUN_SOURCE, RUN_WORDS, SOURCE_WORDS};
use crate::refusals::{accepted, counted, Refused, Result};
use crate::source::Source;
use std::fmt;
use std::io::{self, Read};

/// A row of the table: the counts from the beginning of the trace to the end of a block.
#[derive(Clone, Debug, PartialEq, Eq)]
#[allow(missing_docs)]
pub struct Row {
    pub label: Vec<u8>,
    pub ssrc: u32,
    pub highest: i64,
    pub ect0: u64,
    pub ect1: u64,
    pub ce: u64,
    pub not_ect: u64,
    pub lost: i64,
    pub duplicates: u64,
    pub jumped: u64,
    pub restarts: u64,
}

/// Why a trace is read no further.
#[derive(Debug)]
pub enum Error {
    /// A block is refused.
    Refused(Refused),
    /// A read failed.
    Io(io::Error),
}

impl fmt::Display for Error {
    fn fmt(&self, out: &mut fmt::Formatter) -> fmt::Result {
        match self {
            Error::Refused(refused) => refused.fmt(out),
            Error::Io(error) => error.fmt(out),
        }
    }
}

impl std::error::Error for Error {}

impl From<Refused> for Error {
    fn from(refused: Refused) -> Error {
        Error::Refused(refused)
    }
}

impl From<io::Error> for Error {
    fn from(error: io::Error) -> Error {
        Error::Io(error)
    }
}

/// A run of ecntable: it begins with block 0, and takes the later blocks one by one.
#[derive(Clone, Debug)]
pub struct Run {
    words: [u64; RUN_WORDS],
    zeroth: [u8; BLOCK_BYTES],
}

impl Run {
    /// Takes block 0. Refused with 1, 13 or 14.
    pub fn start(zeroth: &[u8]) -> Result<Run> {
        let mut words = [0; RUN_WORDS];
        accepted(header::run_start(zeroth, &mut words))?;
        let mut kept = [0; BLOCK_BYTES];
        kept.copy_from_slice(zeroth); // what is not refused has this length
        Ok(Run { words, zeroth: kept })
    }

    /// Takes a later block, and writes the row after it, ended by CR LF: its length. Refused with 1, 13 or 14, or 12 with the size.
    pub fn block(&mut self, block: &[u8], out: &mut [u8]) -> Result<usize> {
        counted(header::run_block(&mut self.words, &self.zeroth, block, out))
    }

    /// The values of the last row.
    pub fn row(&self) -> Result<Row> {
        let mut words = [0; SOURCE_WORDS];
        words.copy_from_slice(&self.words[RUN_SOURCE..RUN_SOURCE + SOURCE_WORDS]);
        let source = Source::of(words);
        let label = header::BLOCK_BODY_AT..header::BLOCK_BODY_AT + self.words[header::RUN_LABEL_LENGTH] as usize;
        Ok(Row {
            label: self.zeroth[label].to_vec(),
            ssrc: self.words[header::RUN_SSRC] as u32,
            highest: source.highest(),
            ect0: source.ect0(),
            ect1: source.ect1(),
            ce: source.ce(),
            not_ect: source.not_ect(),
            lost: source.lost()?,
            duplicates: source.duplicates(),
            jumped: self.words[header::RUN_JUMPED],
            restarts: self.words[header::RUN_RESTARTS],
        })
    }
}

/// The blocks of a trace: of 512 bytes, the last perhaps shorter; of an empty one, one of no bytes.
struct Blocks<R> {
    from: R,
    index: u64,
    ended: bool,
}

impl<R: Read> Iterator for Blocks<R> {
    type Item = io::Result<(u64, Vec<u8>)>;

    fn next(&mut self) -> Option<Self::Item> {
        if self.ended {
            return None;
        }
        let mut block = Vec::with_capacity(BLOCK_BYTES);
        let read = self.from.by_ref().take(BLOCK_BYTES as u64).read_to_end(&mut block);
        let index = self.index;
        self.index += 1;
        self.ended = block.len() < BLOCK_BYTES;
        match read {
            Err(error) => {
                self.ended = true;
                Some(Err(error))
            }
            Ok(0) if index > 0 => None,
            Ok(_) => Some(Ok((index, block))),
        }
    }
}

/// The rows of a trace, as it is read. A block that is refused ends them, after the rows before it. (Give a reader that buffers.)
pub fn rows<R: Read>(trace: R) -> impl Iterator<Item = std::result::Result<Row, Error>> {
    let (mut run, mut out, mut failed) = (None::<Run>, [0; ROW_MOST_BYTES], false);
    let mut row = move |index: u64, block: &[u8]| {
        match &mut run {
            None => Run::start(block).map(|begun| run = Some(begun)).map(|()| None),
            Some(run) => run.block(block, &mut out).and_then(|_| run.row()).map(Some),
        }
        .map_err(|refused| Error::from(refused.at(index)))
    };
    Blocks { from: trace, index: 0, ended: false }
        .map(move |each| each.map_err(Error::from).and_then(|(index, block)| row(index, &block)))
        .take_while(move |found| !std::mem::replace(&mut failed, found.is_err()))
        .filter_map(std::result::Result::transpose)
}

/// A block of a trace, its place, and its refusal.
#[derive(Clone, Debug, PartialEq, Eq)]
#[allow(missing_docs)]
pub struct Salvaged {
    pub index: u64,
    pub block: Vec<u8>,
    pub refused: Option<Refused>,
}

/// Judges each block of a trace at its place, as ecnsalvage does: those that are not refused, in order, are what is left of it. A wrong
/// block 0 is the last: there is nothing to go by. (Give a reader that buffers.)
pub fn salvage<R: Read>(trace: R) -> impl Iterator<Item = io::Result<Salvaged>> {
    let (mut run, mut ended) = ([0; RUN_WORDS], false);
    let mut judged = move |index: u64, block: &[u8]| match index {
        0 => header::run_start(block, &mut run),
        _ => header::read_own(run[header::RUN_FORM] as u8, run[header::RUN_SSRC] as u32, block),
    };
    Blocks { from: trace, index: 0, ended: false }
        .map(move |each| {
            each.map(|(index, block)| {
                let refused = accepted(judged(index, &block)).err().map(|refused| refused.at(index));
                Salvaged { index, block, refused }
            })
        })
        .take_while(move |each| {
            let last = each.as_ref().map_or(true, |found| found.index == 0 && found.refused.is_some());
            !std::mem::replace(&mut ended, last)
        })
}

//! Document 01, "Table": the whole run of ecntable over a trace.
use crate::bytes::{u16_at, u32_at};
use crate::refusal::*;
use crate::source::{self, Counted, Source, MOST_ARRIVALS};
use crate::table::{row, HEAD};
use crate::trace::{blocks, is_label, later, refused, zeroth, Form, Label, Record, BLOCK, BODY};

/// A source with its jumps and restarts.
#[derive(Default)]
pub struct Totals {
    pub source: Source,
    pub jumped: u64,
    pub restarts: u64,
}

impl Totals {
    pub fn take(&mut self, records: &[Record]) {
        for record in records {
            match self.source.arrive(record.wire, record.mark) {
                Err(JUMP) => self.jumped = MOST_ARRIVALS.min(self.jumped + 1),
                Ok(Counted::Restarted) => self.restarts = MOST_ARRIVALS.min(self.restarts + 1),
                _ => {}
            }
        }
    }

    pub fn row(&self, label: &[u8], ssrc: u32) -> Vec<u8> {
        row(label, ssrc, &self.source, self.jumped, self.restarts).unwrap()
    }
}

/// What a run has after some blocks.
#[derive(Default)]
pub struct Run {
    pub label: Option<Label>,
    pub totals: Totals,
}

impl Run {
    /// Takes the next block; gives whether a row follows.
    pub fn block(&mut self, bytes: &[u8]) -> Result<bool, Refusal> {
        let Some(label) = &self.label else {
            self.label = Some(zeroth(bytes)?);
            return Ok(false);
        };
        self.totals.take(&later(label, bytes)?);
        Ok(true)
    }

    pub fn row(&self) -> Vec<u8> {
        let Label { ssrc, text, .. } = self.label.as_ref().unwrap();
        self.totals.row(text, *ssrc)
    }
}

/// The standard output of ecntable.
pub fn table(trace: &[u8]) -> Vec<u8> {
    let mut table = HEAD.to_vec();
    let mut run = Run::default();
    for (index, block) in blocks(trace).into_iter().enumerate() {
        match run.block(block) {
            Ok(true) => table.extend(run.row()),
            Ok(false) => {}
            Err(refusal) => {
                table.extend(refused(refusal, index));
                break;
            }
        }
    }
    table
}

// ---- a run as the library lends it: its words, and block 0 with each call

pub const WORDS: usize = 15;

impl Run {
    /// The form, the label's length, the SSRC, the source's words, jumped and restarts.
    pub fn to_words(&self) -> [u64; WORDS] {
        let label = self.label.as_ref().unwrap();
        let mut words = [0; WORDS];
        words[..3].copy_from_slice(&[label.form as u64 + 1, label.text.len() as u64, label.ssrc.into()]);
        words[3..3 + source::WORDS].copy_from_slice(&self.totals.source.to_words());
        words[13..].copy_from_slice(&[self.totals.jumped, self.totals.restarts]);
        words
    }

    /// 9 where the words are no sound run's, or the bytes not its block 0.
    pub fn from_words(words: &[u64], zeroth: &[u8]) -> Result<Run, Refusal> {
        let words: &[u64; WORDS] = words.try_into().map_err(|_| MALFORMED)?;
        let form = u8::try_from(words[0]).ok().and_then(|number| Form::from_number(number).ok()).ok_or(MALFORMED)?;
        let ssrc = u32::try_from(words[2]).map_err(|_| MALFORMED)?;
        require(zeroth.len() == BLOCK && u16_at(zeroth, 0) == form.kinds().0, MALFORMED)?;
        require(u64::from(u16_at(zeroth, 2)) == words[1] && u32_at(zeroth, 4) == ssrc && words[1] <= BODY as u64, MALFORMED)?;
        let text = zeroth[8..8 + words[1] as usize].to_vec();
        let (jumped, restarts) = (words[13], words[14]);
        require(is_label(&text) && jumped.max(restarts) <= MOST_ARRIVALS, MALFORMED)?;
        let source = Source::from_words(&words[3..13])?;
        Ok(Run { label: Some(Label { form, ssrc, text }), totals: Totals { source, jumped, restarts } })
    }
}

//! Document 02, L10: the whole run of ecnforms over a trace.
use crate::refusal::*;
use crate::trace::*;

/// A label, and the records behind it in order.
#[derive(Clone, Debug, PartialEq)]
pub struct Listed {
    pub label: Label,
    pub records: Vec<Record>,
}

/// What the blocks before the first refused one hold, nothing without a label, and that refusal with its block. Going to form 1, a time that
/// needs form 2 refuses its whole block.
pub fn listed(trace: &[u8]) -> (Option<Listed>, Option<(Refusal, usize)>) {
    let mut found: Option<Listed> = None;
    for (index, block) in blocks(trace).into_iter().enumerate() {
        let taken = match &mut found {
            None => zeroth(block).map(|label| found = Some(Listed { label, records: Vec::new() })),
            Some(listed) => later(&listed.label, block).and_then(|records| {
                require(records.iter().all(|record| record.time < listed.label.form.other().times()), FORM_TWO)?;
                listed.records.extend(records);
                Ok(())
            }),
        };
        if let Err(refusal) = taken {
            return (found, Some((refusal, index)));
        }
    }
    (found, None)
}

/// The trace of a list in a form, each block full but perhaps the last.
pub fn packed(form: Form, listed: &Listed) -> Vec<u8> {
    let Listed { label, records } = listed;
    let mut trace = label_block(form, &label.text, label.ssrc).unwrap();
    for records in records.chunks(form.most_records()) {
        trace.extend(arrivals_block(form, records, label.ssrc).unwrap());
    }
    trace
}

/// The standard output and the standard error of ecnforms.
pub fn converted(trace: &[u8]) -> (Vec<u8>, Vec<u8>) {
    let (found, fault) = listed(trace);
    let out = found.map_or(Vec::new(), |listed| packed(listed.label.form.other(), &listed));
    (out, fault.map_or(Vec::new(), |(refusal, index)| refused(refusal, index)))
}

// ---- a conversion as the library lends it: its words, and the part with the records that are held

pub const WORDS: usize = 3;

/// A trace's form and SSRC, and the records of a block that is not full yet.
#[derive(Clone, Debug)]
pub struct Conversion {
    pub form: Form,
    pub ssrc: u32,
    pub held: Vec<Record>,
}

impl Conversion {
    pub fn start(zeroth_block: &[u8]) -> Result<(Conversion, Vec<u8>), Refusal> {
        let Label { form, ssrc, text } = zeroth(zeroth_block)?;
        Ok((Conversion { form, ssrc, held: Vec::new() }, label_block(form.other(), &text, ssrc)?))
    }

    pub fn to_words(&self) -> [u64; WORDS] {
        [self.form as u64 + 1, self.ssrc.into(), self.held.len() as u64]
    }

    /// 9 where the words or the part are no sound conversion's. The part is read as a block's body is.
    pub fn from_words(words: &[u64], part: &[u8]) -> Result<Conversion, Refusal> {
        let &[form, ssrc, held] = words else { return Err(MALFORMED) };
        let form = u8::try_from(form).ok().and_then(|number| Form::from_number(number).ok()).ok_or(MALFORMED)?;
        let ssrc = u32::try_from(ssrc).map_err(|_| MALFORMED)?;
        let other = form.other();
        require(held < other.most_records() as u64 && part.len() >= BODY, MALFORMED)?;
        let held = match held as usize {
            0 => Vec::new(),
            count => of_form(other, &block(other.kinds().1, count, ssrc, &part[..count * other.width()])).map_err(|_| MALFORMED)?.1,
        };
        Ok(Conversion { form, ssrc, held })
    }

    /// The blocks that are full with the records of a later block; the others are held.
    pub fn take(&mut self, bytes: &[u8]) -> Result<Vec<u8>, Refusal> {
        let other = self.form.other();
        let records = later(&Label { form: self.form, ssrc: self.ssrc, text: Vec::new() }, bytes)?;
        require(records.iter().all(|record| record.time < other.times()), FORM_TWO)?;
        self.held.extend(records);
        let mut full = Vec::new();
        while self.held.len() >= other.most_records() {
            let rest = self.held.split_off(other.most_records());
            full.extend(arrivals_block(other, &self.held, self.ssrc)?);
            self.held = rest;
        }
        Ok(full)
    }

    /// The records that are held, as a last block.
    pub fn last(&self) -> Vec<u8> {
        arrivals_block(self.form.other(), &self.held, self.ssrc).unwrap_or_default()
    }

    /// Their bytes at the front of the part.
    pub fn keep(&self, part: &mut [u8]) {
        let bytes = self.held.len() * self.form.other().width();
        part[..bytes].copy_from_slice(self.last().get(8..8 + bytes).unwrap_or_default());
    }
}

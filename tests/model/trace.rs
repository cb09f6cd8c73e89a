//! Document 01, "Trace file", and document 02, L10: one block of either form read and written, and the blocks of a trace in turn. RFC 1071 has the sum.
use crate::bytes::{u16_at, u32_at};
use crate::refusal::*;

pub const BLOCK: usize = 512;
pub const BODY: usize = 502;
pub const CHECK: usize = 510;

/// Form 1 is document 01's, form 2 has longer times.
#[derive(Clone, Copy, Debug, PartialEq)]
pub enum Form {
    One,
    Two,
}

pub const FORMS: [Form; 2] = [Form::One, Form::Two];

impl Form {
    pub fn from_number(number: u8) -> Result<Form, Refusal> {
        match number {
            1 => Ok(Form::One),
            2 => Ok(Form::Two),
            _ => Err(LIMITS),
        }
    }

    pub fn other(self) -> Form {
        self.either(Form::Two, Form::One)
    }

    /// The kinds of a label block and of an arrivals block.
    pub fn kinds(self) -> (u16, u16) {
        self.either((1, 2), (3, 4))
    }

    /// The bytes of a record.
    pub fn width(self) -> usize {
        self.either(8, 10)
    }

    pub fn most_records(self) -> usize {
        self.either(62, 50)
    }

    /// The first time that is too long.
    pub fn times(self) -> u64 {
        self.either(1 << 32, 1 << 48)
    }

    fn either<T>(self, one: T, two: T) -> T {
        match self {
            Form::One => one,
            Form::Two => two,
        }
    }
}

#[derive(Clone, Copy, Debug, PartialEq)]
pub struct Record {
    pub time: u64,
    pub wire: u16,
    pub mark: u8,
}

#[derive(Clone, Debug, PartialEq)]
pub enum Contents {
    Label(Vec<u8>),
    Arrivals(Vec<Record>),
}

/// The form, the SSRC and the contents of a block.
pub fn read(block: &[u8]) -> Result<(Form, u32, Contents), Refusal> {
    require(block.len() == BLOCK, INCOMPLETE)?;
    require(sum(block) == 65_535 && u16_at(block, CHECK) != 65_535, CHECKSUM)?;
    let count = usize::from(u16_at(block, 2));
    let body = &block[8..CHECK];
    let (form, contents) = match u16_at(block, 0) {
        1 => (Form::One, read_label(body, count)),
        2 => (Form::One, read_arrivals(Form::One, body, count)),
        3 => (Form::Two, read_label(body, count)),
        4 => (Form::Two, read_arrivals(Form::Two, body, count)),
        _ => return Err(CONTENTS),
    };
    Ok((form, u32_at(block, 4), contents.ok_or(CONTENTS)?))
}

/// The record `index` of an arrivals block of either form, of which nothing else is judged: 1, 14, 10.
pub fn record_at(block: &[u8], index: usize) -> Result<Record, Refusal> {
    require(block.len() == BLOCK, INCOMPLETE)?;
    let form = match u16_at(block, 0) {
        2 => Form::One,
        4 => Form::Two,
        _ => return Err(CONTENTS),
    };
    let count = usize::from(u16_at(block, 2));
    require((1..=form.most_records()).contains(&count), CONTENTS)?;
    require(index < count, LIMITS)?;
    let (time, rest) = time_and_rest(form, &block[8 + index * form.width()..]);
    Ok(Record { time, wire: u16_at(rest, 0), mark: rest[2] })
}

fn read_label(body: &[u8], count: usize) -> Option<Contents> {
    let (label, unused) = body.split_at_checked(count)?;
    (is_label(label) && all_zero(unused)).then(|| Contents::Label(label.to_vec()))
}

fn read_arrivals(form: Form, body: &[u8], count: usize) -> Option<Contents> {
    let (records, unused) = body.split_at_checked(form.width() * count)?;
    let records: Vec<(u64, &[u8])> = records.chunks(form.width()).map(|record| time_and_rest(form, record)).collect();
    let fits = (1..=form.most_records()).contains(&count) && all_zero(unused) && records.iter().all(|(_, rest)| rest[2] <= 3 && rest[3] == 0);
    let read = |(time, rest): (u64, &[u8])| Record { time, wire: u16_at(rest, 0), mark: rest[2] };
    fits.then(|| Contents::Arrivals(records.into_iter().map(read).collect()))
}

/// The time of a record, 4 or 6 bytes, and what stands behind it.
fn time_and_rest(form: Form, record: &[u8]) -> (u64, &[u8]) {
    match form {
        Form::One => (u64::from(u32_at(record, 0)), &record[4..]),
        Form::Two => (u64::from(u16_at(record, 0)) << 32 | u64::from(u32_at(record, 2)), &record[6..]),
    }
}

fn all_zero(bytes: &[u8]) -> bool {
    bytes.iter().all(|&byte| byte == 0)
}

pub fn is_label(label: &[u8]) -> bool {
    label.len() <= BODY && label.iter().all(|&byte| matches!(byte, 32..=126 | 10 | 13))
}

/// The block of a label that a trace may have, a new one or an old one.
pub fn label_block(form: Form, label: &[u8], ssrc: u32) -> Result<Vec<u8>, Refusal> {
    require(is_label(label), LIMITS)?;
    Ok(block(form.kinds().0, label.len(), ssrc, label))
}

pub fn arrivals_block(form: Form, records: &[Record], ssrc: u32) -> Result<Vec<u8>, Refusal> {
    require((1..=form.most_records()).contains(&records.len()), LIMITS)?;
    require(records.iter().all(|record| record.time < form.times() && record.mark <= 3), LIMITS)?;
    let mut body = Vec::new();
    for record in records {
        let time = record.time.to_be_bytes();
        body.extend(match form {
            Form::One => &time[4..],
            Form::Two => &time[2..],
        });
        body.extend(record.wire.to_be_bytes());
        body.extend([record.mark, 0]);
    }
    Ok(block(form.kinds().1, records.len(), ssrc, &body))
}

/// The block of the records that these bytes hold, as a body has them.
pub fn records_block(form: Form, bytes: &[u8], ssrc: u32) -> Result<Vec<u8>, Refusal> {
    require(bytes.len() % form.width() == 0, LIMITS)?;
    match read_arrivals(form, bytes, bytes.len() / form.width()) {
        Some(Contents::Arrivals(records)) => arrivals_block(form, &records, ssrc),
        _ => Err(LIMITS),
    }
}

/// A block with these contents, whether they keep to the rules or not, and its check.
pub fn block(kind: u16, count: usize, ssrc: u32, body: &[u8]) -> Vec<u8> {
    let mut block = Vec::new();
    block.extend(kind.to_be_bytes());
    block.extend((count as u16).to_be_bytes());
    block.extend(ssrc.to_be_bytes());
    block.extend(body);
    block.resize(BLOCK, 0);
    set_check(&mut block);
    block
}

pub fn set_check(block: &mut [u8]) {
    block[CHECK..].fill(0);
    let check = 65_535 - sum(block);
    block[CHECK..].copy_from_slice(&check.to_be_bytes());
}

/// The ones' complement sum: a carry out of the 16 bits is added at the low end.
pub fn sum(block: &[u8]) -> u16 {
    let mut sum: u32 = block.chunks(2).map(|word| u32::from(u16_at(word, 0))).sum();
    while sum > 65_535 {
        sum = sum % 65_536 + sum / 65_536;
    }
    sum as u16
}

// ---- the blocks of a trace in turn

/// What block 0 says.
#[derive(Clone, Debug, PartialEq)]
pub struct Label {
    pub form: Form,
    pub ssrc: u32,
    pub text: Vec<u8>,
}

/// A tail is a block, and so is an empty trace.
pub fn blocks(trace: &[u8]) -> Vec<&[u8]> {
    if trace.is_empty() {
        vec![trace]
    } else {
        trace.chunks(BLOCK).collect()
    }
}

pub fn zeroth(block: &[u8]) -> Result<Label, Refusal> {
    match read(block)? {
        (form, ssrc, Contents::Label(text)) => Ok(Label { form, ssrc, text }),
        _ => Err(CONTENTS),
    }
}

/// The SSRC and the records of a later block, which has the label's form.
pub fn of_form(form: Form, block: &[u8]) -> Result<(u32, Vec<Record>), Refusal> {
    match read(block)? {
        (its, ssrc, Contents::Arrivals(records)) if its == form => Ok((ssrc, records)),
        _ => Err(CONTENTS),
    }
}

/// The records of a later block, which has the label's form and SSRC.
pub fn later(label: &Label, block: &[u8]) -> Result<Vec<Record>, Refusal> {
    let (ssrc, records) = of_form(label.form, block)?;
    require(ssrc == label.ssrc, CONTENTS)?;
    Ok(records)
}

/// What every program prints for the first refused block.
pub fn refused(refusal: Refusal, index: usize) -> Vec<u8> {
    refused_line(refusal.number(), index as u64)
}

pub fn refused_line(number: u8, block: u64) -> Vec<u8> {
    format!("refused {number} block {block}\r\n").into_bytes()
}

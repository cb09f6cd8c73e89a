//! The records of an arrivals block.
use crate::form::Form;

/// The next records of a full block, one each 20 ms.
pub fn records(form: Form, time: u64, arrivals: &mut impl Iterator<Item = (u16, u8)>) -> Vec<u8> {
    let mut body = Vec::with_capacity(form.most * form.width);
    for (i, (number, mark)) in arrivals.take(form.most).enumerate() {
        let time = (time + 20 * i as u64).to_be_bytes();
        body.extend_from_slice(&time[12 - form.width..]);
        body.extend_from_slice(&number.to_be_bytes());
        body.extend_from_slice(&[mark, 0]);
    }
    body
}

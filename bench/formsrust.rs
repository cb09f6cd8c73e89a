//! The other converter: document 02's two forms (L10) in straightforward Rust, with the same checks and the same output as ecnforms.
mod blocks;
mod form;
mod trace;

use blocks::{BLOCK, BODY};
use form::{Form, ONE, TWO};
use std::io::{self, BufReader, BufWriter, Write};

const BUFFER: usize = 65_536;

/// The records of blocks of one form, each block written when it is full.
struct Packed<W> {
    out: W,
    form: Form,
    ssrc: u32,
    count: usize,
    block: [u8; BLOCK],
}

impl<W: Write> Packed<W> {
    /// Adds records of `FROM` bytes. In both forms the last eight are the time's lower four, wire number, mark and zero.
    fn add<const FROM: usize, const TO: usize>(&mut self, records: &[u8]) -> io::Result<()> {
        for record in records.chunks_exact(FROM) {
            let end = BODY + TO * (self.count + 1);
            self.block[end - 8..end].copy_from_slice(&record[FROM - 8..]);
            self.count += 1;
            if self.count == self.form.most {
                self.write_block()?;
            }
        }
        Ok(())
    }

    fn write_block(&mut self) -> io::Result<()> {
        if self.count > 0 {
            blocks::seal(&mut self.block, self.form.label + 1, self.count, self.ssrc);
            self.out.write_all(&self.block)?;
            (self.count, self.block) = (0, [0; BLOCK]);
        }
        Ok(())
    }
}

/// Takes the blocks behind block 0; gives the first refused one.
fn convert(input: &mut impl io::Read, label: &trace::Found, packed: &mut Packed<impl Write>) -> io::Result<Option<(u8, u64)>> {
    let mut b = [0; BLOCK];
    for i in 1.. {
        let size = trace::next_block(input, &mut b)?;
        if size == 0 {
            break;
        }
        let n = match trace::later(label, &b[..size]) {
            Ok(n) => n,
            Err(refusal) => return Ok(Some((refusal, i))),
        };
        let records = &b[BODY..BODY + n * label.form.width];
        if label.form == ONE {
            packed.add::<8, 10>(records)?;
        } else if records.chunks_exact(10).all(|record| record[0] == 0 && record[1] == 0) {
            packed.add::<10, 8>(records)?;
        } else {
            return Ok(Some((17, i)));
        }
    }
    Ok(None)
}

fn main() -> io::Result<()> {
    let mut input = BufReader::with_capacity(BUFFER, io::stdin().lock());
    let mut out = BufWriter::with_capacity(BUFFER, io::stdout().lock());
    let mut b = [0; BLOCK];
    let size = trace::next_block(&mut input, &mut b)?;
    let label = match trace::zeroth(&b[..size]) {
        Ok(found) => found,
        Err(refusal) => return write!(io::stderr(), "refused {refusal} block 0\r\n"),
    };
    let form = if label.form == ONE { TWO } else { ONE };
    out.write_all(&blocks::label(form, &b[BODY..BODY + label.count], label.ssrc))?;
    let mut packed = Packed { out, form, ssrc: label.ssrc, count: 0, block: [0; BLOCK] };
    let refused = convert(&mut input, &label, &mut packed)?;
    packed.write_block()?;
    packed.out.flush()?;
    if let Some((refusal, i)) = refused {
        write!(io::stderr(), "refused {refusal} block {i}\r\n")?;
    }
    Ok(())
}

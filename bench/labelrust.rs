//! The other copier: document 02's labels without line breaks (L14) in straightforward Rust, with the same checks and the same outputs as ecnlabel.
mod blocks;
mod form;
mod trace;

use blocks::{BLOCK, BODY};
use std::io::{self, BufReader, BufWriter, Read, Write};

const BUFFER: usize = 65_536;

/// Copies the blocks after block 0; gives the first refused one.
fn copy(input: &mut impl Read, label: &trace::Found, out: &mut impl Write) -> io::Result<Option<(u8, u64)>> {
    let mut b = [0; BLOCK];
    for i in 1.. {
        let size = trace::next_block(input, &mut b)?;
        if size == 0 {
            break;
        }
        if let Err(refusal) = trace::later(label, &b[..size]) {
            return Ok(Some((refusal, i)));
        }
        out.write_all(&b)?;
    }
    Ok(None)
}

fn main() -> io::Result<()> {
    let mut input = BufReader::with_capacity(BUFFER, io::stdin().lock());
    let mut out = BufWriter::with_capacity(BUFFER, io::stdout().lock());
    let mut b = [0; BLOCK];
    let size = trace::next_block(&mut input, &mut b)?;
    let label = match trace::zeroth(&b[..size]) {
        Ok(found) => found,
        Err(refusal) => return write!(io::stderr(), "refused {refusal} block 0\r\n"),
    };
    let text = &mut b[BODY..BODY + label.count];
    let retired = text.iter_mut().filter(|byte| matches!(**byte, 10 | 13));
    let replaced = retired.map(|byte| *byte = b' ').count();
    out.write_all(&blocks::label(label.form, text, label.ssrc))?;
    let refused = copy(&mut input, &label, &mut out)?;
    out.flush()?;
    match refused {
        Some((refusal, i)) => write!(io::stderr(), "refused {refusal} block {i}\r\n"),
        None => write!(io::stderr(), "{replaced}\r\n"),
    }
}

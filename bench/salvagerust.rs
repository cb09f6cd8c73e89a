//! The other salvage: document 02's copy of what is left of a damaged trace (L11) in straightforward Rust, with the same checks and the same outputs as
//! ecnsalvage.
mod blocks;
mod form;
mod trace;

use blocks::BLOCK;
use std::io::{self, BufReader, BufWriter, Write};

const BUFFER: usize = 65_536;

fn main() -> io::Result<()> {
    let mut input = BufReader::with_capacity(BUFFER, io::stdin().lock());
    let mut out = BufWriter::with_capacity(BUFFER, io::stdout().lock());
    let mut listed = BufWriter::with_capacity(BUFFER, io::stderr().lock());
    let mut b = [0; BLOCK];
    let size = trace::next_block(&mut input, &mut b)?;
    let label = match trace::zeroth(&b[..size]) {
        Ok(found) => found,
        Err(refusal) => return write!(listed, "refused {refusal} block 0\r\n"),
    };
    out.write_all(&b)?;
    for i in 1.. {
        let size = trace::next_block(&mut input, &mut b)?;
        if size == 0 {
            break;
        }
        match trace::later(&label, &b[..size]) {
            Ok(_) => out.write_all(&b)?,
            Err(refusal) => write!(listed, "refused {refusal} block {i}\r\n")?,
        }
    }
    out.flush()?;
    listed.flush()
}

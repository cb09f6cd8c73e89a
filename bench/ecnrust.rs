//! The other program: document 01's table with document 02's restarts (L5) and forms (L10) in straightforward Rust, with the same checks and the
//! same output as ecntable.
mod blocks;
mod counting;
mod form;
mod trace;

use blocks::{BLOCK, BODY};
use counting::{arrive_all, quoted, write_row, Ring, Source};
use std::io::{self, BufReader, BufWriter, Write};

const BUFFER: usize = 65_536;
fn main() -> io::Result<()> {
    let mut input = BufReader::with_capacity(BUFFER, io::stdin().lock());
    let mut out = BufWriter::with_capacity(BUFFER, io::stdout().lock());
    let (mut b, mut source, mut ring) = ([0; BLOCK], Source::default(), Ring::new());
    write!(out, "label,ssrc,highest,ect0,ect1,ce,notect,lost,dup,jumped,restarts\r\n")?;
    let size = trace::next_block(&mut input, &mut b)?;
    let found = match trace::zeroth(&b[..size]) {
        Ok(found) => found,
        Err(refusal) => return write!(out, "refused {refusal} block 0\r\n"),
    };
    let label = quoted(&b[BODY..BODY + found.count]);
    for i in 1u64.. {
        let size = trace::next_block(&mut input, &mut b)?;
        if size == 0 {
            break;
        }
        let n = match trace::later(&found, &b[..size]) {
            Ok(n) => n,
            Err(refusal) => return write!(out, "refused {refusal} block {i}\r\n"),
        };
        let records = &b[BODY..BODY + n * found.form.width];
        if found.form == form::ONE {
            arrive_all::<8>(&mut source, &mut ring, records);
        } else {
            arrive_all::<10>(&mut source, &mut ring, records);
        }
        write_row(&mut out, &label, found.ssrc, &source)?;
    }
    out.flush()
}

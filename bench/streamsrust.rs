//! The other program for several streams (document 02, L1) in straightforward Rust over a sorted array, with the same checks and the same output as
//! ecnstreams.
mod blocks;
mod counting;
mod form;
mod trace;

use blocks::{BLOCK, BODY};
use counting::{arrive_all, quoted, write_row, Ring, Source};
use std::io::{self, BufReader, BufWriter, Read, Write};

const BUFFER: usize = 65_536;
const MOST: usize = 16;

struct Stream {
    ssrc: u32,
    source: Source,
    ring: Ring,
}

/// The stream of an SSRC, put in its place if it is new; 15 where there is none left.
fn stream(streams: &mut Vec<Stream>, ssrc: u32) -> Result<&mut Stream, u8> {
    let at = match streams.binary_search_by_key(&ssrc, |stream| stream.ssrc) {
        Ok(at) => at,
        Err(_) if streams.len() == MOST => return Err(15),
        Err(at) => {
            streams.insert(at, Stream { ssrc, source: Source::default(), ring: Ring::new() });
            at
        }
    };
    Ok(&mut streams[at])
}

/// Counts a later block, which has the label's form.
fn take(label: &trace::Found, streams: &mut Vec<Stream>, b: &[u8]) -> Result<(), u8> {
    let found = trace::read(b)?;
    if found.is_label || found.form != label.form {
        return Err(14);
    }
    let Stream { source, ring, .. } = stream(streams, found.ssrc)?;
    let records = &b[BODY..BODY + found.count * found.form.width];
    if found.form == form::ONE {
        arrive_all::<8>(source, ring, records);
    } else {
        arrive_all::<10>(source, ring, records);
    }
    Ok(())
}

/// Counts the blocks behind block 0; gives the first refused one.
fn take_all(input: &mut impl Read, label: &trace::Found, streams: &mut Vec<Stream>) -> io::Result<Option<(u8, u64)>> {
    let mut b = [0; BLOCK];
    for i in 1.. {
        let size = trace::next_block(input, &mut b)?;
        if size == 0 {
            break;
        }
        if let Err(refusal) = take(label, streams, &b[..size]) {
            return Ok(Some((refusal, i)));
        }
    }
    Ok(None)
}

fn main() -> io::Result<()> {
    let mut input = BufReader::with_capacity(BUFFER, io::stdin().lock());
    let mut out = BufWriter::with_capacity(BUFFER, io::stdout().lock());
    let mut b = [0; BLOCK];
    write!(out, "label,ssrc,highest,ect0,ect1,ce,notect,lost,dup,jumped,restarts\r\n")?;
    let size = trace::next_block(&mut input, &mut b)?;
    let found = match trace::zeroth(&b[..size]) {
        Ok(found) => found,
        Err(refusal) => return write!(out, "refused {refusal} block 0\r\n"),
    };
    let mut streams = Vec::new();
    if let Some((refusal, i)) = take_all(&mut input, &found, &mut streams)? {
        return write!(out, "refused {refusal} block {i}\r\n");
    }
    let label = quoted(&b[BODY..BODY + found.count]);
    for stream in &streams {
        write_row(&mut out, &label, stream.ssrc, &stream.source)?;
    }
    out.flush()
}

//! A trace fed in stretches of one length.
use crate::arrivals::{Arrivals, LINKS};
use crate::{blocks, form, library, records};

/// The blocks of the trace, and the lengths of the stretches: a byte, a block and one byte less, a packet of a line, a large piece.
pub const BLOCKS: usize = 500;
pub const STRETCHES: [usize; 5] = [1, 511, 512, 1_448, 65_536];

const MOST: usize = 1_228;

/// A trace on a lossy link.
pub fn trace(label: &[u8], ssrc: u32) -> Vec<u8> {
    let mut list = Arrivals::new(LINKS[1].0, 1);
    let mut trace = blocks::label(form::ONE, label, ssrc).to_vec();
    for i in 1..BLOCKS {
        let records = records::records(form::ONE, (20 * form::ONE.most * i) as u64, &mut list);
        trace.extend_from_slice(&blocks::arrivals(form::ONE, &records, ssrc));
    }
    trace
}

/// Room for the rows of one stretch.
pub fn room(stretch: usize) -> Vec<u8> {
    vec![0; (stretch / blocks::BLOCK + 1) * MOST]
}

/// The words at the end, the length of all rows, and the answer of the closing call.
pub fn fed(trace: &[u8], stretch: usize, rows: &mut [u8]) -> (library::Upload, usize, u8) {
    let (mut upload, mut kept, mut length) = (library::Upload::default(), [0; 1_024], 0);
    for bytes in trace.chunks(stretch) {
        length += usize::try_from(library::feed(&mut upload, &mut kept, bytes, rows)).expect("no block is refused");
    }
    let answer = library::feed_close(&mut upload, &kept);
    (upload, length, answer)
}

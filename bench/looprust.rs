//! A loop that reads and writes, 128 KiB at a time, and does nothing else. (`cat` may have the system copy.)
use std::fs::File;
use std::io::{self, Read, Write};
use std::os::fd::FromRawFd;

fn main() -> io::Result<()> {
    // The descriptors themselves: Rust's own handles have buffers.
    let [mut input, mut out] = [0, 1].map(|descriptor| unsafe { File::from_raw_fd(descriptor) });
    let mut piece = vec![0; 131_072];
    loop {
        match input.read(&mut piece)? {
            0 => return Ok(()),
            n => out.write_all(&piece[..n])?,
        }
    }
}

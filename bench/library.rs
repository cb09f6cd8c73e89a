//! The functions of include/flasknib.h that are timed.

extern "C" {
    pub fn flasknib_arrive(source: *mut u64, words: usize, wire: u16, mark: u8) -> u8;
    pub fn flasknib_sources_arrive(sources: *mut u64, words: usize, ssrc: u32, wire: u16, mark: u8) -> u8;
    pub fn flasknib_count_block(source: *mut u64, words: usize, records: *const u8, length: usize, width: usize) -> i64;
    pub fn flasknib_read_compound(bytes: *const u8, length: usize, media: u32, profile: u8, found: *mut u64, words: usize) -> u8;
    pub fn flasknib_breaker_start(
        k: u64,
        m: u64,
        timeout: u64,
        reduce: u8,
        full: u8,
        time: u64,
        breaker: *mut u64,
        words: usize,
    ) -> u16;
    pub fn flasknib_breaker_report(
        breaker: *mut u64,
        words: usize,
        time: u64,
        highest: u32,
        fraction: u64,
        rtt: u64,
        size: u64,
        rate: u64,
    ) -> u16;
    pub fn flasknib_write_row(
        label: *const u8,
        length: usize,
        ssrc: u32,
        source: *const u64,
        words: usize,
        jumped: u64,
        restarts: u64,
        out: *mut u8,
        room: usize,
    ) -> i64;
    pub fn flasknib_feed(
        upload: *mut u64,
        words: usize,
        kept: *mut u8,
        kept_length: usize,
        stretch: *const u8,
        stretch_length: usize,
        out: *mut u8,
        room: usize,
    ) -> i64;
    pub fn flasknib_feed_close(upload: *mut u64, words: usize, kept: *const u8, length: usize) -> u8;
}

pub type Source = [u64; 10];

pub fn arrive(source: &mut [u64], wire: u16, mark: u8) -> u8 {
    unsafe { flasknib_arrive(source.as_mut_ptr(), source.len(), wire, mark) }
}

pub fn sources_arrive(table: &mut [u64], ssrc: u32, wire: u16, mark: u8) -> u8 {
    unsafe { flasknib_sources_arrive(table.as_mut_ptr(), table.len(), ssrc, wire, mark) }
}

pub fn count_block(source: &mut Source, records: &[u8]) -> i64 {
    unsafe { flasknib_count_block(source.as_mut_ptr(), source.len(), records.as_ptr(), records.len(), 8) }
}

pub fn read_compound(bytes: &[u8], media: u32, profile: u8, found: &mut [u64; 25]) -> u8 {
    unsafe { flasknib_read_compound(bytes.as_ptr(), bytes.len(), media, profile, found.as_mut_ptr(), found.len()) }
}

pub fn breaker_start(k: u64, m: u64, timeout: u64, time: u64) -> [u64; 77] {
    let mut breaker = [0; 77];
    let answer = unsafe { flasknib_breaker_start(k, m, timeout, 0, 0, time, breaker.as_mut_ptr(), breaker.len()) };
    assert_eq!(answer, 0, "a breaker starts");
    breaker
}

pub fn breaker_report(breaker: &mut [u64; 77], r: &crate::breaker::Report) -> u16 {
    let (words, at) = (breaker.len(), breaker.as_mut_ptr());
    unsafe { flasknib_breaker_report(at, words, r.time, r.highest, r.fraction, r.rtt, r.size, r.rate) }
}

pub fn write_row(label: &[u8], ssrc: u32, source: &Source, jumped: u64, restarts: u64, out: &mut [u8]) -> i64 {
    let (words, at) = (source.len(), source.as_ptr());
    unsafe { flasknib_write_row(label.as_ptr(), label.len(), ssrc, at, words, jumped, restarts, out.as_mut_ptr(), out.len()) }
}

pub type Upload = [u64; 18];

pub fn feed(upload: &mut Upload, kept: &mut [u8; 1_024], stretch: &[u8], out: &mut [u8]) -> i64 {
    let (words, size, room) = (upload.len(), kept.len(), out.len());
    unsafe { flasknib_feed(upload.as_mut_ptr(), words, kept.as_mut_ptr(), size, stretch.as_ptr(), stretch.len(), out.as_mut_ptr(), room) }
}

pub fn feed_close(upload: &mut Upload, kept: &[u8; 1_024]) -> u8 {
    unsafe { flasknib_feed_close(upload.as_mut_ptr(), upload.len(), kept.as_ptr(), kept.len()) }
}

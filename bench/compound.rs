//! The compound reader of document 01 in plain Rust.

type Found = [u64; 25];

fn short(b: &[u8], at: usize) -> u64 {
    u64::from(u16::from_be_bytes([b[at], b[at + 1]]))
}

fn long(b: &[u8], at: usize) -> u64 {
    u64::from(u32::from_be_bytes([b[at], b[at + 1], b[at + 2], b[at + 3]]))
}

/// The first report block about `media`, behind a head of so many bytes.
fn report_blocks(packet: &[u8], head: usize, count: usize, media: u64, found: &mut Found) -> Result<(), u8> {
    if packet.len() < head + 24 * count {
        return Err(4);
    }
    for block in packet[head..head + 24 * count].chunks_exact(24) {
        if found[0] == 0 && long(block, 0) == media {
            let lost = (long(block, 4) << 40) as i64 >> 40;
            let rest = [8, 12, 16, 20].map(|at| long(block, at));
            found[..3].copy_from_slice(&[1, u64::from(block[4]), lost as u64]);
            found[3..7].copy_from_slice(&rest);
            found[24] = long(packet, 4);
        }
    }
    Ok(())
}

fn feedback(packet: &[u8], media: u64, found: &mut Found) -> Result<(), u8> {
    if packet.len() != 32 {
        return Err(4);
    }
    if found[7] == 0 && long(packet, 8) == media {
        found[7] = 1;
        found[8] = long(packet, 4);
        found[9..12].copy_from_slice(&[12, 16, 20].map(|at| long(packet, at)));
        found[12..16].copy_from_slice(&[24, 26, 28, 30].map(|at| short(packet, at)));
    }
    Ok(())
}

fn entries(block: &[u8], media: u64, found: &mut Found) {
    for entry in block.chunks_exact(20) {
        if found[16] == 0 && long(entry, 0) == media {
            found[16..19].copy_from_slice(&[1, long(entry, 4), long(entry, 8)]);
            found[19..23].copy_from_slice(&[12, 14, 16, 18].map(|at| short(entry, at)));
        }
    }
}

fn extended(packet: &[u8], media: u64, found: &mut Found) -> Result<(), u8> {
    let mut rest = packet.get(8..).ok_or(4)?;
    while !rest.is_empty() {
        if rest.len() < 4 {
            return Err(6);
        }
        let words = short(rest, 2) as usize;
        let body = rest.get(4..4 + 4 * words).ok_or(6)?;
        if rest[0] == 13 && words % 5 == 0 {
            entries(body, media, found);
        }
        rest = &rest[4 + 4 * words..];
    }
    Ok(())
}

/// The packet without its padding.
fn without_padding(packet: &[u8], last: bool) -> Result<&[u8], u8> {
    if packet[0] & 0x20 == 0 {
        return Ok(packet);
    }
    let count = usize::from(packet[packet.len() - 1]);
    if !last || count % 4 != 0 || count < 4 || count > packet.len() - 4 {
        return Err(5);
    }
    Ok(&packet[..packet.len() - count])
}

/// The 25 words about `media`, or a refusal; 3 is not given where `reduced` compounds are taken.
#[inline(always)]
pub fn read(bytes: &[u8], media: u32, reduced: bool) -> Result<Found, u8> {
    if bytes.is_empty() {
        return Err(1);
    }
    if bytes.len() > 65_507 {
        return Err(10);
    }
    let (mut rest, mut found, media) = (bytes, [0; 25], u64::from(media));
    while !rest.is_empty() {
        if rest.len() < 4 {
            return Err(1);
        }
        if rest[0] >> 6 != 2 {
            return Err(2);
        }
        let size = 4 + 4 * short(rest, 2) as usize;
        let whole = rest.get(..size).ok_or(4)?;
        let packet = without_padding(whole, size == rest.len())?;
        let (kind, count) = (packet[1], usize::from(packet[0] & 31));
        let report = kind == 200 || kind == 201;
        if !reduced && rest.len() == bytes.len() && !report {
            return Err(3);
        }
        found[23] |= u64::from(report);
        match (kind, count) {
            (200, n) => report_blocks(packet, 28, n, media, &mut found)?,
            (201, n) => report_blocks(packet, 8, n, media, &mut found)?,
            (205, 8) => feedback(packet, media, &mut found)?,
            (207, _) => extended(packet, media, &mut found)?,
            _ => {}
        }
        rest = &rest[size..];
    }
    Ok(found)
}

/// An SR with one report block, ECN feedback and an XR packet with an ECN summary, all about `media`.
pub fn sample(media: u32) -> Vec<u8> {
    let m = media;
    let sr = [0x81C8_000C, 9, 1, 2, 3, 4, 5, m, 0x1000_0007, 70_000, 12, 13, 14];
    let ecn = [0x88CD_0007, 9, m, 65_539, 2, 1, 0x0002_0000, 0x0002_0001];
    let xr = [0x80CF_0007, 9, 0x0D00_0005, m, 2, 1, 0x0002_0000, 0x0002_0001];
    let words = sr.iter().chain(&ecn).chain(&xr);
    words.flat_map(|word: &u32| word.to_be_bytes()).collect()
}

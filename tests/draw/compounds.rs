//! Compound RTCP: packets of all kinds about few SSRCs, then damaged.
use crate::Draw;

/// An RR with no report blocks; and the head of an XR packet with one ECN summary block of one entry.
pub const RR: [u8; 8] = [0x80, 201, 0, 1, 0, 0, 0, 7];
pub const XR: [u8; 8] = [0x80, 207, 0, 7, 0, 0, 0, 7];

/// Both profiles, and now and then a number of none.
pub fn profile(draw: &Draw) -> u8 {
    match draw.below(40) {
        0 => draw.of(&[2, 3, 128, 255]),
        n => (n % 2) as u8,
    }
}

/// Few SSRCs, so that reports often meet the one that is asked about.
pub fn ssrc(draw: &Draw) -> u32 {
    draw.of(&[0, 1, 2, 9, 0x0102_0304, 0x0D00_0005, u32::MAX])
}

/// One in three is a reduced-size compound, which begins with any packet.
pub fn sound(draw: &Draw) -> Vec<u8> {
    let mut packets = vec![if draw.one_in(3) { packet(draw) } else { first(draw) }];
    for _ in 0..draw.below(5) {
        packets.push(packet(draw));
    }
    if draw.one_in(4) {
        pad(draw, packets.last_mut().unwrap());
    }
    packets.concat()
}

/// Any input: sound, damaged in one or two places, at the size limit, or of any bytes; and whether it is a damaged one.
pub fn any(draw: &Draw) -> (Vec<u8>, bool) {
    let mut bytes = sound(draw);
    match draw.below(100) {
        0 => return ((0..draw.below(60)).map(|_| draw.u64() as u8).collect(), false),
        1 => return (at_the_size_limit(draw), false),
        2..=45 => return (bytes, false),
        _ => {}
    }
    for _ in 0..draw.within(1, 2) {
        damage(draw, &mut bytes);
    }
    (bytes, true)
}

/// A packet with this header and body, which is filled up to whole words.
fn with_header(low_bits: u8, kind: u8, body: &[u8]) -> Vec<u8> {
    let words = body.len().div_ceil(4);
    let mut packet = vec![2 << 6 | low_bits, kind];
    packet.extend((words as u16).to_be_bytes());
    packet.extend(body);
    packet.resize(4 * words + 4, 0);
    packet
}

fn first(draw: &Draw) -> Vec<u8> {
    let count = draw.below(4) as u8;
    let (kind, before) = draw.of(&[(200, 24), (201, 4)]);
    let mut body = draw.bytes(before);
    for _ in 0..count {
        body.extend(ssrc(draw).to_be_bytes());
        body.extend(draw.bytes(20));
    }
    body.extend(draw.bytes(draw.of(&[0, 0, 0, 4, 24])));
    with_header(count, kind, &body)
}

fn packet(draw: &Draw) -> Vec<u8> {
    match draw.below(8) {
        0 => first(draw),
        1 | 2 => feedback(draw),
        3..=5 => xr(draw),
        6 => with_header(draw.of(&[1, 7, 9, 15, 31]), 205, &draw.bytes(4 * draw.index(9))),
        _ => with_header(draw.below(32) as u8, draw.of(&[202, 203, 204, 206, 208, 0, 255]), &draw.bytes(4 * draw.index(9))),
    }
}

fn feedback(draw: &Draw) -> Vec<u8> {
    let mut body = draw.bytes(4);
    body.extend(ssrc(draw).to_be_bytes());
    body.extend(draw.bytes(20));
    with_header(8, 205, &body)
}

fn xr(draw: &Draw) -> Vec<u8> {
    let mut body = draw.bytes(4);
    for _ in 0..draw.below(4) {
        let kind = draw.of(&[13, 13, 13, 1, 4, 7, 12, 14]);
        let words = if draw.one_in(4) { draw.index(12) } else { 5 * draw.index(4) };
        body.extend([kind, draw.u64() as u8, 0, words as u8]);
        for _ in 0..words {
            body.extend(ssrc(draw).to_be_bytes());
        }
    }
    with_header(draw.below(32) as u8, 207, &body)
}

fn pad(draw: &Draw, packet: &mut Vec<u8>) {
    let count = 4 * draw.within(1, 6) as usize;
    packet.extend(draw.bytes(count - 1));
    packet.push(count as u8);
    packet[0] |= 0x20;
    let words = packet.len() / 4 - 1;
    packet[2..4].copy_from_slice(&(words as u16).to_be_bytes());
}

fn damage(draw: &Draw, bytes: &mut Vec<u8>) {
    let starts = packet_starts(bytes);
    let at = draw.of(&starts).min(bytes.len().saturating_sub(4));
    match draw.below(10) {
        _ if bytes.len() < 4 => bytes.clear(),
        0 => bytes.truncate(draw.index(bytes.len())),
        1 => bytes.extend(draw.bytes(1 + draw.index(6))),
        2 => bytes[at] ^= 1 << draw.below(8),
        3 => bytes[at + 1] = draw.of(&[200, 201, 205, 207, 202]),
        4 => bytes[at + 3] = bytes[at + 3].wrapping_add(draw.of(&[1, 255, 2, 5])),
        5 => bytes[at] ^= 0x20,
        6 => *bytes.last_mut().unwrap() = draw.of(&[0, 1, 3, 4, 8, 12, 28, 32, 255]),
        7 => pad_in_place(draw, bytes, at),
        8 => drop(bytes.remove(draw.index(bytes.len()))),
        _ => {
            let place = draw.index(bytes.len());
            bytes[place] = draw.u64() as u8;
        }
    }
}

/// Sets the padding bit of the packet at `at`, and a padding count around the number of bytes from there to the end.
fn pad_in_place(draw: &Draw, bytes: &mut [u8], at: usize) {
    let length = bytes.len() - at;
    bytes[at] |= 0x20;
    *bytes.last_mut().unwrap() = (length as u8).wrapping_sub(draw.of(&[0, 1, 2, 4, 8, 12]));
}

/// Where packets begin, as far as the lengths lead.
fn packet_starts(bytes: &[u8]) -> Vec<usize> {
    let mut starts = vec![0];
    let mut at = 0;
    while at + 4 <= bytes.len() {
        at += 4 * (usize::from(bytes[at + 2]) << 8 | usize::from(bytes[at + 3])) + 4;
        if at + 4 <= bytes.len() {
            starts.push(at);
        }
    }
    starts
}

/// 65,500 to 65,512 bytes: one RR, then one large packet.
fn at_the_size_limit(draw: &Draw) -> Vec<u8> {
    let mut bytes = with_header(0, 201, &draw.bytes(4));
    let kind = draw.of(&[204, 207]);
    let words = draw.of(&[16_372, 16_373, 16_374, 16_375]);
    let mut body = vec![0; 4 * words];
    body[4..8].copy_from_slice(&[13, 0, ((words - 2) / 256) as u8, ((words - 2) % 256) as u8]);
    bytes.extend(with_header(0, kind, &body));
    bytes.extend(draw.bytes(draw.index(4)));
    bytes
}

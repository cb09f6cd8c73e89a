//! Labels and trace blocks, sound and damaged.
use crate::Draw;
use model::trace::*;

/// A label within the rules, often with bytes that the table quotes.
pub fn label(draw: &Draw) -> Vec<u8> {
    let length = match draw.below(6) {
        0 => draw.edge(0, BODY as u64),
        _ => draw.below(24),
    };
    let quoted = draw.one_in(2);
    (0..length).map(|_| byte(draw, quoted)).collect()
}

fn byte(draw: &Draw, quoted: bool) -> u8 {
    match draw.within(32, 126) as u8 {
        _ if quoted && draw.one_in(5) => draw.of(b",\"\r\n"),
        b',' | b'"' => b'x',
        other => other,
    }
}

/// A label that is now and then outside the rules.
pub fn any_label(draw: &Draw) -> Vec<u8> {
    let mut label = label(draw);
    match draw.below(12) {
        0 => label.resize(BODY + draw.index(3), b'x'),
        1 if !label.is_empty() => {
            let place = draw.index(label.len());
            label[place] = draw.of(&[0, 9, 11, 12, 14, 31, 127, 128, 255]);
        }
        _ => {}
    }
    label
}

/// A label with retired bytes: CR and LF one by one, in pairs and in rows, often at its ends, or nothing else.
pub fn old_label(draw: &Draw) -> Vec<u8> {
    let mut label = if draw.one_in(6) { Vec::new() } else { label(draw) };
    for _ in 0..draw.within(1, 4) {
        let place = draw.edge(0, label.len() as u64) as usize;
        let breaks = draw.of(&[&b"\n"[..], b"\r", b"\r\n", b"\n\r", b"\r\n\r\n", b"\n\n", b" \r\n "]);
        label.splice(place..place, breaks.iter().copied());
    }
    if draw.one_in(12) {
        label = vec![draw.of(b"\r\n"); BODY];
    }
    label.truncate(BODY);
    label
}

/// The number of records of a block.
pub fn count(draw: &Draw, form: Form) -> usize {
    draw.edge(1, form.most_records() as u64) as usize
}

/// A time below a limit, often where 32 bits or the limit end.
pub fn time(draw: &Draw, below: u64) -> u64 {
    let near = draw.below(900);
    match draw.below(6) {
        0 => near,
        1 => below - 1 - near,
        2 => ((1 << 32) - 450 + near) % below,
        3 => draw.below(below),
        _ => draw.below(1 << 32),
    }
}

/// The records of a block of the form, with times below a limit.
pub fn records(draw: &Draw, form: Form, below: u64) -> Vec<Record> {
    let mut wire = draw.u64() as u16;
    let ahead = draw.of(&[2, 40, 4_000]);
    let wires = (0..count(draw, form)).map(|_| {
        wire = wire.wrapping_add(draw.below(ahead) as u16).wrapping_sub(draw.below(3) as u16);
        wire
    });
    with_times(draw, below, &wires.collect::<Vec<u16>>())
}

/// Records of these wire numbers. Their times go on, and wrap at the limit.
pub fn with_times(draw: &Draw, below: u64, wires: &[u16]) -> Vec<Record> {
    let mut time = time(draw, below);
    let record = |&wire| {
        time = (time + draw.below(30)) % below;
        Record { time, wire, mark: draw.below(4) as u8 }
    };
    wires.iter().map(record).collect()
}

pub fn sound(draw: &Draw) -> Vec<u8> {
    let (form, ssrc) = (draw.of(&FORMS), draw.u64() as u32);
    match draw.one_in(2) {
        true => label_block(form, &label(draw), ssrc).unwrap(),
        false => arrivals_block(form, &records(draw, form, form.times()), ssrc).unwrap(),
    }
}

/// Any input of the block reader.
pub fn any(draw: &Draw) -> Vec<u8> {
    let mut block = sound(draw);
    match draw.below(12) {
        0 => block.resize(draw.of(&[0, 1, 256, 510, 511, 513, 514, 1_024]), 0),
        1 => block.fill(0),
        2 => flip(draw, &mut block),
        3 => check_of_ones(draw, &mut block),
        4..=8 => damage_contents(draw, &mut block),
        _ => {}
    }
    block
}

pub fn flip(draw: &Draw, bytes: &mut [u8]) {
    let place = draw.index(bytes.len());
    bytes[place] ^= 1 << draw.below(8);
}

/// Makes the other words sum to 65,535, so that a check of 0 and one of 65,535 both fit the sum.
pub fn check_of_ones(draw: &Draw, block: &mut [u8]) {
    let check = u32::from(block[CHECK]) << 8 | u32::from(block[CHECK + 1]);
    let word = (u32::from(block[6]) << 8 | u32::from(block[7])) + check;
    let word = if word > 65_535 { word - 65_535 } else { word } as u16;
    block[6..8].copy_from_slice(&word.to_be_bytes());
    block[CHECK..].fill(draw.of(&[0, 255]));
}

/// Damages what the check covers, and sets the check that fits.
pub fn damage_contents(draw: &Draw, block: &mut [u8]) {
    let form = if block[1] < 3 { Form::One } else { Form::Two };
    let arrivals = block[1] % 2 == 0;
    // Where one of the records ends, or could end.
    let end = 8 + form.width() * draw.within(1, u64::from(block[3]).clamp(1, form.most_records() as u64)) as usize;
    match draw.below(8) {
        0 => block[1] = draw.below(6) as u8,
        1 => block[0] = draw.below(2) as u8,
        2 => block[3] = draw.of(&[0, 1, 49, 50, 51, 61, 62, 63, 245, 246, 247]),
        3 => block[2] = draw.below(3) as u8,
        4 if arrivals => block[end - 2] = draw.edge(2, 255) as u8,
        5 if arrivals => block[end - 1] = draw.below(2) as u8,
        6 => block[CHECK - 1 - draw.index(12)] = draw.below(3) as u8,
        _ => {
            let place = 8 + draw.index(BODY);
            block[place] = draw.of(&[0, 1, 9, 10, 13, 31, 32, 126, 127, 255]);
        }
    }
    set_check(block);
}

//! flasknib_arrive and flasknib_count_block: single calls on records of every kind, and runs of both.
use crate::compare::Compare;
use crate::lent::Lent;
use draw::{arrivals, sources, Draw};

pub fn calls(compare: &Compare, draw: &Draw) {
    for _ in 0..200_000 {
        let words = sources::any(draw);
        let wire = wire(draw, &words);
        arrive(compare, &mut Lent::new(&words), wire, mark(draw));
    }
    for _ in 0..60_000 {
        count_any_block(compare, draw);
    }
    for _ in 0..3_000 {
        run(compare, draw);
    }
}

pub fn arrive(compare: &Compare, source: &mut Lent<u64>, wire: u16, mark: u8) -> u8 {
    compare.call("flasknib_arrive", source, |calls, source| i64::from(calls.arrive(source.part_mut(), wire, mark))) as u8
}

pub fn count_block(compare: &Compare, source: &mut Lent<u64>, records: &[u8], width: usize) -> i64 {
    let mut lent = (source.clone(), Lent::new(records));
    let answer = compare.call("flasknib_count_block", &mut lent, |calls, (source, records)| {
        calls.count_block(source.part_mut(), records.part(), width)
    });
    *source = lent.0;
    answer
}

/// A record of four bytes: wire number, mark and zero.
pub fn record(wire: u16, mark: u8) -> [u8; 4] {
    let [high, low] = wire.to_be_bytes();
    [high, low, mark, 0]
}

pub fn mark(draw: &Draw) -> u8 {
    if draw.one_in(30) {
        draw.edge(4, 255) as u8
    } else {
        draw.below(4) as u8
    }
}

/// A wire number near the highest, near a limit, near the remembered one, or any.
pub fn wire(draw: &Draw, words: &[u64]) -> u16 {
    let highest = words.get(1).map_or(0, |&highest| highest as u16);
    let remembered = words.get(9).map_or(0, |&word| word as u16).wrapping_sub(1);
    let near = draw.below(5) as u16;
    match draw.below(7) {
        0 => highest.wrapping_add(2_998 + near),
        1 => highest.wrapping_sub(97 + near),
        2 => highest.wrapping_sub(draw.below(100) as u16),
        3 => highest.wrapping_add(draw.below(3_000) as u16),
        4 => remembered,
        5 => remembered.wrapping_add(near).wrapping_sub(2),
        _ => draw.u64() as u16,
    }
}

/// Records of 4 to 12 bytes, mostly those of a form, mostly 1 to 62 of them; now and then cut, or with a width that does not fit. Their numbers are
/// each drawn near the record, or those of a sender that jumps and begins again.
fn count_any_block(compare: &Compare, draw: &Draw) {
    let words = sources::any(draw);
    let width = draw.of(&[8, 8, 10, 10, 4, 5, 12]);
    let count = if draw.one_in(20) { draw.of(&[0, 63, 64, 124]) } else { draw.edge(1, 62) };
    let numbers = if draw.one_in(2) {
        (0..count).map(|_| wire(draw, &words)).collect()
    } else {
        arrivals::wires(draw, words.get(1).map_or(0, |&highest| highest as u16), count as usize)
    };
    let mut records = Vec::new();
    for &wire in &numbers[..count as usize] {
        records.extend(draw.bytes(width - 4));
        records.extend(wire.to_be_bytes());
        records.extend([draw.below(4) as u8, draw.u64() as u8]);
    }
    if draw.one_in(10) && !records.is_empty() {
        let place = draw.index(records.len());
        records[place] = draw.of(&[0, 3, 4, 255]);
    }
    if draw.one_in(20) {
        records.truncate(draw.index(records.len() + 1));
    }
    let width = if draw.one_in(20) { draw.of(&[0, 1, 3, 16, records.len(), usize::MAX, 1 << 63]) } else { width };
    count_block(compare, &mut Lent::new(&words), &records, width);
}

/// The numbers of a sender that jumps and begins again, from a sound record on, in single calls and in blocks in turn: pairs lie in one block,
/// over a block's end, and over 2^48 arrivals.
fn run(compare: &Compare, draw: &Draw) {
    let mut source = Lent::new(&sources::sound(draw));
    let wires = arrivals::wires(draw, source.part()[1] as u16, draw.within(2, 200) as usize);
    let mut rest = &wires[..];
    while !rest.is_empty() {
        let piece;
        (piece, rest) = rest.split_at(rest.len().min(draw.edge(1, 62) as usize));
        if draw.one_in(2) {
            let records: Vec<u8> = piece.iter().flat_map(|&wire| record(wire, draw.below(4) as u8)).collect();
            count_block(compare, &mut source, &records, 4);
        } else {
            for &wire in piece {
                arrive(compare, &mut source, wire, mark(draw));
            }
        }
    }
}

//! Lists of true numbers with their marks, and orders of them that keep to the limits; wire numbers of a sender that begins again.
use crate::Draw;
use model::truth::{keeps_to_the_limits, Arrival};

/// A list within the limits: reordering, losses, duplicates, wraps, numbers before the base, marks above 3.
pub fn list(draw: &Draw) -> Vec<Arrival> {
    let length = draw.within(1, 200);
    let spread = draw.of(&[1, 3, 40, 600, 2_999]);
    let base = draw.edge(0, 65_535) as i64;
    let mut highest = base;
    let mut list = vec![(base, draw.below(4) as u8)];
    for _ in 1..length {
        let number = match draw.below(8) {
            0..=3 => highest + draw.within(1, spread) as i64,
            4 => highest + draw.edge(1, 2_999) as i64,
            5 => highest,
            6 => highest - draw.edge(0, 99) as i64,
            _ => highest - draw.below(6) as i64,
        };
        let mark = if draw.one_in(20) { draw.edge(4, 255) as u8 } else { draw.below(4) as u8 };
        list.push((number, mark));
        if mark <= 3 {
            highest = highest.max(number);
        }
    }
    list
}

/// A list that lies within 99 numbers, so that each of its orders keeps to the limits.
pub fn narrow_list(draw: &Draw) -> Vec<Arrival> {
    let low = draw.edge(0, 65_436) as i64;
    (0..draw.within(2, 120)).map(|_| (low + draw.below(100) as i64, draw.below(4) as u8)).collect()
}

/// Another order of the list with the same first arrival that keeps to the limits, if one is found.
pub fn reordered(draw: &Draw, list: &[Arrival]) -> Option<Vec<Arrival>> {
    let mut other = list.to_vec();
    draw.shuffle(&mut other[1..]);
    if !keeps_to_the_limits(&other) {
        other = list.to_vec();
        for _ in 0..list.len() {
            swap_near(draw, &mut other);
        }
    }
    (other != list).then_some(other)
}

/// Swaps two arrivals behind the first, near each other, if the list then keeps to the limits.
fn swap_near(draw: &Draw, list: &mut [Arrival]) {
    let one = 1 + draw.index(list.len() - 1);
    let another = (one + draw.index(9)).min(list.len() - 1);
    list.swap(one, another);
    if !keeps_to_the_limits(list) {
        list.swap(one, another);
    }
}

/// At least `count` wire numbers behind `highest`: in order, and now and then jumps, alone and in pairs.
pub fn wires(draw: &Draw, highest: u16, count: usize) -> Vec<u16> {
    let (mut last, mut wires) = (highest, Vec::new());
    let often = draw.of(&[1, 4, 30]);
    while wires.len() < count {
        if draw.one_in(often) {
            wires.extend(jumps(draw, last));
            last = *wires.last().unwrap();
        } else {
            last = last.wrapping_add(draw.within(1, 3) as u16);
            wires.push(last);
        }
    }
    wires
}

/// Jumps from `highest`, and whether they restart: a pair, over the wrap too, with a pair's first twice, with another jump or an accepted number
/// between, or the second of the pair alone.
fn jumps(draw: &Draw, highest: u16) -> Vec<u16> {
    let far = highest.wrapping_add(draw.edge(3_000, 65_436) as u16);
    let other = far.wrapping_add(draw.edge(2, 65_534) as u16);
    let (next, near) = (far.wrapping_add(1), highest.wrapping_add(1));
    match draw.below(10) {
        0..=2 => vec![far, next],
        3 => vec![65_535, 0],
        4 => vec![far, other, other.wrapping_add(1)],
        5 => vec![far, other, next],
        6 => vec![far, near, next],
        7 => vec![far, far, next],
        8 => vec![far, next, next.wrapping_add(1), far, next],
        _ => vec![draw.of(&[far, next, near])],
    }
}

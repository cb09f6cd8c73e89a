//! Document 02, L14: flasknib_write_label on labels with retired bytes, and flasknib_space_label.
use crate::blocks::{read, write_label};
use crate::compare::Compare;
use crate::lent::Lent;
use draw::{blocks, Draw};
use model::trace::{label_block, set_check, Form, BLOCK, BODY, FORMS};

const NO_ROOM: i64 = -(256 * 512 + 12);

/// A form, a label, the room, and the writer's answer: 10, then 19, then 12.
const WRITTEN: [(u8, &[u8], usize, i64); 15] = [
    (1, b"ward 3", 512, 512),
    (2, b"", 513, 512),
    (1, b"ward 3", 511, NO_ROOM),
    (1, b"ward\n3", 512, -19),
    (2, b"ward\r3", 512, -19),
    (1, b"\r\n", 512, -19),
    (2, b"ward 3\n", 512, -19),
    (1, b"\rward 3", 0, -19),
    (1, &[10; 502], 511, -19),
    (1, &[10; 503], 512, -10),
    (2, b"ward\t\r3", 512, -10),
    (1, b"\n\x7f", 0, -10),
    (0, b"ward\n3", 512, -10),
    (3, b"\n", 512, -10),
    (1, b"\x0b\x0c\x0e", 512, -10),
];

/// An old label, the one that takes its place, and the number of bytes replaced.
const SPACED: [(&[u8], &[u8], i64); 8] = [
    (b"", b"", 0),
    (b"ward 3", b"ward 3", 0),
    (b"ward\n3", b"ward 3", 1),
    (b"ward\r3", b"ward 3", 1),
    (b"ward\r\n3", b"ward  3", 2),
    (b"\n\rward 3\n\n", b"  ward 3  ", 4),
    (b"\r", b" ", 1),
    (&[13; 502], &[32; 502], 502),
];

pub fn examples(compare: &Compare) {
    for (form, label, room, wanted) in WRITTEN {
        let (answer, out) = write_label(compare, form, label, 7, &vec![9; room]);
        compare.hold(answer == wanted, &format!("a label of {} bytes for form {form} and a room of {room}: {answer}", label.len()));
        compare.hold(answer == 512 || out == vec![9; room], "a refused label leaves the output");
    }
    for (old, new, number) in SPACED {
        for form in FORMS {
            let [before, after] = [old, new].map(|label| label_block(form, label, 7).unwrap());
            compare.hold(space(compare, &before, &[9; BLOCK]) == (number, after), &format!("{}", old.escape_ascii()));
            compare.hold(space(compare, &before, &[9; BLOCK - 1]) == (NO_ROOM, vec![9; BLOCK - 1]), "512 bytes are needed");
        }
    }
    refused(compare);
}

/// 1, 13 and 14 before 12.
fn refused(compare: &Compare) {
    let mut block = label_block(Form::One, b"ward\n3", 7).unwrap();
    let wanted = |block: &[u8], number: i64| compare.hold(space(compare, block, &[]) == (-number, Vec::new()), &format!("refused with {number}"));
    wanted(&[], 1);
    wanted(&block[..BLOCK - 1], 1);
    block[9] ^= 1;
    wanted(&block, 13);
    block[9] = 127;
    set_check(&mut block);
    wanted(&block, 14);
    block[1] = 2;
    set_check(&mut block);
    wanted(&block, 14);
}

/// Block 0 of every kind, and labels with retired bytes, of which one in three is damaged.
pub fn calls(compare: &Compare, draw: &Draw) {
    for _ in 0..30_000 {
        let block = if draw.one_in(4) { blocks::any(draw) } else { old_block(draw) };
        for room in draw.rooms(BLOCK) {
            again(compare, &block, &vec![draw.u64() as u8; room]);
        }
        let label = if draw.one_in(3) { blocks::any_label(draw) } else { blocks::old_label(draw) };
        write_label(compare, draw.within(1, 2) as u8, &label, draw.u64() as u32, &vec![draw.u64() as u8; draw.room(BLOCK)]);
    }
}

fn old_block(draw: &Draw) -> Vec<u8> {
    let mut block = label_block(draw.of(&FORMS), &blocks::old_label(draw), draw.u64() as u32).unwrap();
    match draw.below(6) {
        0 => blocks::flip(draw, &mut block),
        1 => blocks::damage_contents(draw, &mut block),
        _ => {}
    }
    block
}

/// What was written is a label block that no call changes any more, and whose label the writer takes and writes as it stands.
fn again(compare: &Compare, block: &[u8], out: &[u8]) {
    let (answer, out) = space(compare, block, out);
    if answer < 0 {
        return;
    }
    let (front, (_, words)) = (&out[..BLOCK], read(compare, &out[..BLOCK], &[0; 3]));
    compare.hold(space(compare, front, &[0; BLOCK]) == (0, front.to_vec()), "a label is spaced once");
    let (form, length) = (words[0] as u8 / 2 + 1, words[1] as usize);
    compare.hold(length <= BODY, "a label block");
    let written = write_label(compare, form, &front[8..8 + length], words[2] as u32, &[0; BLOCK]);
    compare.hold(written == (BLOCK as i64, front.to_vec()), "the writer takes a spaced label");
}

/// Gives the answer and the bytes of `out` after the call.
fn space(compare: &Compare, zeroth: &[u8], out: &[u8]) -> (i64, Vec<u8>) {
    let mut lent = (Lent::new(zeroth), Lent::new(out));
    let answer = compare.call("flasknib_space_label", &mut lent, |calls, (zeroth, out)| calls.space_label(zeroth.part(), out.part_mut()));
    (answer, lent.1.part().to_vec())
}

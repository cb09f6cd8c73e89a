//! The attribute ecn-capable-rtp: lines near the grammar and each byte at each place of some, records sound and damaged, and offers answered.
use crate::compare::Compare;
use crate::lent::Lent;
use draw::Draw;
use model::sdp::{line, to_words, Attribute, WORDS};

/// RFC 6679's three lines in section 12, of which 12.1's are malformed, and others with an escape, every extension, and letters in both cases.
const LINES: [&str; 8] = [
    "a=ecn-capable-rtp: ice rtp ect=0 mode=setread",
    "a=ecn-capable-rtp: ice ect=0 mode=readonly",
    "a=ecn-capable-rtp: ice,rtp,leap ect=0; mode=setread",
    "a=ecn-capable-rtp: rtp",
    "a=ecn-capable-rtp: rtp x=\"a\"; mode=setonly; y=\"b\"",
    "A=ECN-Capable-RTP: Rtp,MODE,x Mode=SetOnly; rtp=1; ECT=Random",
    "a=ecn-capable-rtp: leap,ice mode=readonly; ect=1; q=\"\\\\ \\\" \u{7ff}\u{ffff}\u{10ffff}\"; t=!",
    "a=ecn-capable-rtp: a,b,c,d,e,f,g,h i=1; j=2; k=3; l=4; m=5; n=6; o=7; p=8",
];

/// Gives how many lines were read with 0, and how many offers were answered with 0.
pub fn calls(compare: &Compare, draw: &Draw) -> (usize, usize) {
    let mut read_well = each_byte(compare) + lengths(compare) + utf8(compare);
    for _ in 0..100_000 {
        let text = near(draw);
        let room = draw.of(&[0, WORDS - 1, WORDS, WORDS, WORDS, WORDS + 1]);
        read_well += usize::from(read(compare, &text, room).0 == 0);
    }
    compare.hold(read_well > 10_000, &format!("only {read_well} lines read"));
    modes(compare);
    let mut answered = 0;
    for _ in 0..100_000 {
        let (mut ours, mut offer) = (record(draw), record(draw));
        write_and_read(compare, draw, &ours);
        for words in [&mut ours, &mut offer] {
            if draw.one_in(8) {
                damage(draw, words);
            }
        }
        write(compare, &ours, draw.of(&[0, 21, 22, 84, 84, 85]));
        let room = draw.of(&[0, WORDS - 1, WORDS, WORDS, WORDS, WORDS + 1]);
        answered += usize::from(answer(compare, &offer, &ours, room).0 == 0);
    }
    compare.hold(answered > 10_000, &format!("only {answered} offers are answered"));
    (read_well, answered)
}

fn read(compare: &Compare, text: &[u8], room: usize) -> (i64, Vec<u64>) {
    let mut lent = (Lent::new(text), Lent::new(&vec![7u64; room]));
    let answer =
        compare.call("flasknib_read_attribute", &mut lent, |calls, (text, found)| i64::from(calls.read_attribute(text.part(), found.part_mut())));
    (answer, lent.1.part().to_vec())
}

fn write(compare: &Compare, words: &[u64], room: usize) -> (i64, Vec<u8>) {
    let mut lent = (Lent::new(words), Lent::new(&vec![0xEEu8; room]));
    let answer = compare.call("flasknib_write_attribute", &mut lent, |calls, (words, out)| calls.write_attribute(words.part(), out.part_mut()));
    (answer, lent.1.part().to_vec())
}

fn answer(compare: &Compare, offer: &[u64], ours: &[u64], room: usize) -> (i64, Vec<u64>) {
    let mut lent = (Lent::new(offer), Lent::new(ours), Lent::new(&vec![7u64; room]));
    let answer = compare.call("flasknib_answer", &mut lent, |calls, (offer, ours, found)| {
        i64::from(calls.answer(offer.part(), ours.part(), found.part_mut()))
    });
    (answer, lent.2.part().to_vec())
}

/// The lines as they stand; each with every byte in the place of each, before each, and without each.
fn each_byte(compare: &Compare) -> usize {
    let mut well = 0;
    for text in LINES.map(str::as_bytes) {
        well += usize::from(read(compare, text, WORDS).0 == 0);
        for at in 0..text.len() {
            let cut = [&text[..at], &text[at + 1..]].concat();
            well += usize::from(read(compare, &cut, WORDS).0 == 0);
            for byte in 0..=255 {
                let mut put = text.to_vec();
                put[at] = byte;
                well += usize::from(read(compare, &put, WORDS).0 == 0);
                put.insert(at, text[at]);
                well += usize::from(read(compare, &put, WORDS).0 == 0);
            }
        }
    }
    well
}

/// Lines of 0 to 260 bytes, well formed and not, and 7 to 9 methods and parameters, known and unknown.
fn lengths(compare: &Compare) -> usize {
    let mut well = usize::from(read(compare, b"", WORDS).0 == 0);
    for length in 0..=260 {
        let text = format!("a=ecn-capable-rtp: {}", "x".repeat(length));
        for end in ["", " ", ",rtp", "\r\n"] {
            well += usize::from(read(compare, format!("{text}{end}").as_bytes(), WORDS).0 == 0);
        }
    }
    for methods in 7..=9 {
        for parameters in 6..=9 {
            for (method, first) in [("rtp", "mode=setread"), ("x", "ect=1"), ("LEAP", "y=\"\"")] {
                let list = vec![method; methods].join(",");
                let behind = [vec![first], vec!["z=1"; parameters - 1]].concat().join("; ");
                for text in [format!("{list} {behind}"), format!("{list} {behind};"), list.clone()] {
                    well += usize::from(read(compare, format!("a=ecn-capable-rtp: {text}").as_bytes(), WORDS).0 == 0);
                }
            }
        }
    }
    well
}

/// Every first byte with every second in a string, alone and with one, two or three bytes behind.
fn utf8(compare: &Compare) -> usize {
    let mut well = 0;
    for first in 0x80..=0xFF {
        for second in (0x70..=0xD0).chain([0, 0x20, 0x22, 0xFF]) {
            for behind in [&b""[..], b"\x80", b"\xBF\xBF", b"\x80\x80\x80", b"\xC0"] {
                let text = [&b"a=ecn-capable-rtp: rtp x=\""[..], &[first, second], behind, b"\""].concat();
                well += usize::from(read(compare, &text, WORDS).0 == 0);
            }
        }
    }
    well
}

/// All pairs of modes, with each ect of ours.
fn modes(compare: &Compare) {
    for offered in 0..4 {
        for own in 0..4 {
            for ect in 0..4 {
                let offer = to_words(&Attribute { used: 2, methods: [1, 3, 0, 0, 0, 0, 0, 0], mode: offered, ect: 3 - ect });
                let ours = to_words(&Attribute { used: 2, methods: [2, 3, 0, 0, 0, 0, 0, 0], mode: own, ect });
                let left_out = offered == own && (own == 1 || own == 2);
                let (told, found) = answer(compare, &offer, &ours, WORDS);
                let wanted = [1, 3, 0, 0, 0, 0, 0, 0, 0, own, ect];
                let right = if left_out { told == 129 && found == [7; WORDS] } else { told == 0 && found == wanted };
                compare.hold(right, &format!("modes {offered} and {own}: {told} and {found:?}"));
            }
        }
    }
}

/// A line near the grammar: items of both lists with the right separators but one time in some, and then perhaps damaged.
fn near(draw: &Draw) -> Vec<u8> {
    let methods = ["rtp", "ice", "leap", "RTP", "Leap", "iCe", "x", "mode", "rtpx", "!", "a.b~", "\"", "", "r tp", "é"];
    let parameters = [
        "mode=setonly", "mode=setread", "mode=readonly", "MODE=SetRead", "ect=0", "ect=1", "ect=random", "Ect=RANDOM", "rtp=1", "x=y", "x=\"a b\"",
        "x=\"\\\"\"", "x=\"é;,\"", "mode=x", "ect=2", "mode=\"setread\"", "ect=", "=1", "x", "x=\"\\a\"", "x=\"", "x=a=b", "modes=1", "mode = setread",
    ];
    let known = |draw: &Draw, all: &[&'static str], sound: usize| if draw.one_in(20) { draw.of(all) } else { draw.of(&all[..sound]) };
    let many = |draw: &Draw| draw.of(&[1, 1, 2, 2, 3, 3, 4, 7, 8, 9]);
    let mut list: Vec<&str> = (0..many(draw)).map(|_| known(draw, &methods, 11)).collect();
    let mut behind: Vec<&str> = (0..many(draw)).map(|_| known(draw, &parameters, 13)).collect();
    if !draw.one_in(4) {
        let mut seen = [false; 2];
        behind.retain(|parameter| {
            let which = ["mode=", "ect="].iter().position(|name| parameter.to_ascii_lowercase().starts_with(name));
            which.is_none_or(|which| !std::mem::replace(&mut seen[which], true))
        });
    }
    draw.shuffle(&mut list);
    let comma = if draw.one_in(30) { draw.of(&[", ", ";", " ,", ",,"]) } else { "," };
    let semicolon = if draw.one_in(30) { draw.of(&[";", ";  ", ", ", ";\t", " ; "]) } else { "; " };
    let name = if draw.one_in(20) {
        draw.of(&["a=ecn-capable-rtp:", "a=ecn-capable-rtp ", "a=ecn-capable-rtp:  ", "a=ecn-capable-rtp\x1a ", "m=ecn-capable-rtp: "])
    } else {
        draw.of(&["a=ecn-capable-rtp: ", "a=ecn-capable-rtp: ", "A=ECN-CAPABLE-RTP: ", "a=ecn-Capable-rtP: "])
    };
    let space = if behind.is_empty() || draw.one_in(4) { "" } else { " " };
    let behind = if space.is_empty() { String::new() } else { behind.join(semicolon) };
    let mut text = format!("{name}{}{space}{behind}", list.join(comma)).into_bytes();
    if draw.one_in(6) {
        let at = draw.index(text.len());
        match draw.below(4) {
            0 => text[at] = draw.u64() as u8,
            1 => text.insert(at, draw.u64() as u8),
            2 => drop(text.remove(at)),
            _ => text[at] ^= 0x20,
        }
    }
    text
}

/// The words of a record of 0 to 9 methods; those that are not in use are anything.
fn record(draw: &Draw) -> Vec<u64> {
    let used = draw.of(&[0, 1, 1, 2, 2, 3, 3, 4, 8, 9]);
    let mut words = vec![used];
    words.extend((0..8).map(|i| if i < used { draw.within(1, 3) } else { draw.of(&[0, 0, 1, 4, u64::MAX]) }));
    words.extend([draw.below(4), draw.below(4)]);
    words
}

/// One word that is too large or 0, or another number of words.
fn damage(draw: &Draw, words: &mut Vec<u64>) {
    let at = draw.index(words.len());
    match draw.below(4) {
        0 => drop(words.pop()),
        1 => words.push(0),
        2 => words[at] = draw.of(&[0, 4, 5, 8, 9, 255, 1 << 32, u64::MAX]),
        _ => words[at] = draw.any_size(),
    }
}

/// A record written in rooms around its size; the line is read back to the same words, 0 behind the last method.
fn write_and_read(compare: &Compare, draw: &Draw, words: &[u64]) {
    let used = words[0];
    let mut methods = [0; 8];
    methods.copy_from_slice(&words[1..9]);
    let Ok(text) = line(&Attribute { used, methods, mode: words[9], ect: words[10] }) else { return };
    let room = draw.of(&[0, text.len() - 1, text.len(), text.len() + 1]);
    let (length, out) = write(compare, words, room);
    if length < 0 {
        return;
    }
    let mut same = words.to_vec();
    same[1 + used as usize..9].fill(0);
    let (told, found) = read(compare, &out[..length as usize], WORDS);
    compare.hold(told == 0 && found == same, &format!("{words:?} is written and read back as {found:?}"));
}

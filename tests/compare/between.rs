//! flasknib_ecn_between: any two reports, and the reports of a list at two places, whose differences are the true ones. flasknib_breaker_call: packets of
//! every kind, read and drawn, with every kind of what is kept, and both damaged.
use crate::compare::Compare;
use crate::lent::Lent;
use crate::reading::read;
use crate::reports::feedback;
use draw::compounds::RR;
use draw::{arrivals, breakers, compounds, Draw};
use model::between::{kept_to_words, Carried, Packet, CALL_WORDS, KEPT_WORDS, WORDS};
use model::compound;
use model::source::CE;
use model::truth::{counted, lost, Arrival};

/// Gives the number of lists whose reports at two places tell the true differences.
pub fn calls(compare: &Compare, draw: &Draw) -> usize {
    for _ in 0..100_000 {
        let (earlier, highest) = (any(draw), draw.u64() as u32);
        let earlier = Carried { highest, ..earlier };
        let later = Carried { highest: breakers::number(draw, highest), ..any(draw) };
        let counts: Vec<u64> = (0..draw.room(WORDS)).map(|_| draw.u64()).collect();
        between(compare, &later, &earlier, &counts);
    }
    (0..1_500).filter(|_| cut(compare, draw)).count()
}

fn any(draw: &Draw) -> Carried {
    let short = || draw.edge(0, 65_535) as u16;
    Carried { highest: draw.edge(0, u64::from(u32::MAX)) as u32, ce: short(), lost: short() }
}

/// Gives the answer and the words of `counts` after the call.
fn between(compare: &Compare, later: &Carried, earlier: &Carried, counts: &[u64]) -> (i64, Vec<u64>) {
    let mut lent = Lent::new(counts);
    let answer =
        compare.call("flasknib_ecn_between", &mut lent, |calls, counts| i64::from(calls.ecn_between(later, earlier, counts.part_mut())));
    (answer, lent.part().to_vec())
}

/// The feedbacks behind some arrivals of a list and behind all of them, as they are read. Gives whether the true differences are in range.
fn cut(compare: &Compare, draw: &Draw) -> bool {
    let list = arrivals::list(draw);
    let front = &list[..draw.within(1, list.len() as u64) as usize];
    let (first_found, last_found) = (own_compound(compare, front), own_compound(compare, &list));
    let (answer, told) = between(compare, &carried(&last_found), &carried(&first_found), &[9; WORDS]);
    let (first, last) = (counted(front), counted(&list));
    let in_between = lost(&list) - lost(front);
    if !(-32_768..=32_767).contains(&in_between) {
        return false;
    }
    let truth = [in_between as u64, last.marks[CE] - first.marks[CE], (last.highest - first.highest) as u64];
    compare.hold(answer == 0 && told == truth, &format!("{list:?} from {} on: {told:?}, not {truth:?}", front.len()));
    let (_, kept, alone) = packet_call(compare, &first_found, &[0; KEPT_WORDS], &[9; CALL_WORDS]);
    let (_, _, call) = packet_call(compare, &last_found, &kept, &[9; CALL_WORDS]);
    let reports = alone == [2, first_found[9], 0, 0, 0, 0] && call[..3] == [2, last_found[9], 0] && call[3..] == truth;
    compare.hold(reports, &format!("{list:?} from {} on: our compounds are for {alone:?} and {call:?}", front.len()));
    true
}

/// The words of a compound of an RR without blocks and the feedback of the list's record.
fn own_compound(compare: &Compare, list: &[Arrival]) -> Vec<u64> {
    let packet = feedback(compare, &counted(list).to_words(), 9, 1, &[0; 32]);
    read(compare, &[&RR[..], &packet].concat(), 1, 0, &[0; compound::WORDS]).1
}

/// Words 9, 12 and 14 of a compound.
fn carried(found: &[u64]) -> Carried {
    Carried { highest: found[9] as u32, ce: found[12] as u16, lost: found[14] as u16 }
}

/// Gives how often the call was heard, a report with a fraction, and a report with counts.
pub fn packets(compare: &Compare, draw: &Draw) -> [usize; 3] {
    let mut calls = [0; 3];
    for turn in 0..150_000 {
        let mut found = if turn % 3 == 0 { read_words(compare, draw) } else { drawn_words(draw) };
        let mut kept = kept_to_words(any_kept(draw, &found)).to_vec();
        if draw.one_in(5) {
            damage(draw, &mut found);
        }
        if draw.one_in(5) {
            damage(draw, &mut kept);
        }
        let room = draw.of(&[0, 5, 6, 6, 6, 6, 7]);
        let (answer, _, call) = packet_call(compare, &found, &kept, &vec![draw.u64(); room]);
        if answer == 0 {
            calls[call[0] as usize] += 1;
        }
    }
    compare.hold(!calls.contains(&0), &format!("of the calls for packets one is never given: {calls:?}"));
    calls
}

/// Gives the answer, what is kept and the words of `call` after the call.
fn packet_call(compare: &Compare, found: &[u64], kept: &[u64], call: &[u64]) -> (i64, Vec<u64>, Vec<u64>) {
    let mut lent = (Lent::new(found), Lent::new(kept), Lent::new(call));
    let answer = compare.call("flasknib_breaker_call", &mut lent, |calls, (found, kept, call)| {
        i64::from(calls.breaker_call(found.part(), kept.part_mut(), call.part_mut()))
    });
    (answer, lent.1.part().to_vec(), lent.2.part().to_vec())
}

/// The words of a compound that was read, reduced-size ones among them.
fn read_words(compare: &Compare, draw: &Draw) -> Vec<u64> {
    let (answer, found) = read(compare, &compounds::sound(draw), compounds::ssrc(draw), 1, &[0; compound::WORDS]);
    compare.hold(answer == 0, "a sound compound is refused");
    found
}

/// Words in which each part is there or not, with numbers of its widths, often the least and the greatest; of the others any.
fn drawn_words(draw: &Draw) -> Vec<u64> {
    let mut words: Vec<u64> = (0..compound::WORDS).map(|_| draw.any_size()).collect();
    for at in [0, 7, 16] {
        words[at] = draw.below(2);
    }
    words[23] = u64::from(!draw.one_in(6));
    words[1] = draw.edge(0, 255);
    for at in [3, 9] {
        words[at] = draw.edge(0, u32::MAX.into());
    }
    for at in [12, 14, 19, 21] {
        words[at] = draw.edge(0, 65_535);
    }
    words
}

/// None, or one whose highest number is around the packet's, so that it is before it or went back.
fn any_kept(draw: &Draw, found: &[u64]) -> Option<Carried> {
    let packet = Packet::from_words(found).ok()?;
    let near = packet.feedback.map(|feedback| feedback.highest).or(packet.block.map(|(_, highest)| highest));
    let highest = near.unwrap_or(draw.u64() as u32).wrapping_sub(breakers::number(draw, 0));
    (!draw.one_in(4)).then(|| Carried { highest, ..any(draw) })
}

/// One word too large, of any size or a bit more; or another number of words.
fn damage(draw: &Draw, words: &mut Vec<u64>) {
    let at = draw.index(words.len());
    match draw.below(6) {
        0 => drop(words.pop()),
        1 => words.push(draw.below(2)),
        2 => words[at] = draw.any_size(),
        3 => words[at] = draw.of(&[2, 255, 256, 65_535, 65_536, 1 << 32, (1 << 32) - 1]),
        4 => words[at] ^= 1 << draw.below(64),
        _ => words[at] ^= 1,
    }
}

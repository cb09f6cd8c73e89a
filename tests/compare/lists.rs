//! Demand 3: whole lists of calls end in the count over the true numbers, in each order that keeps to the limits.
use crate::compare::Compare;
use crate::counting::arrive;
use crate::lent::Lent;
use crate::reports::{feedback, summary};
use draw::{arrivals, Draw};
use model::source::{Source, WORDS};
use model::truth::{counted, keeps_to_the_limits, lost, wire, Arrival};

/// Gives the number of lists, and of other orders of them.
pub fn lists(compare: &Compare, draw: &Draw) -> (u64, u64) {
    let (lists, mut orders) = (1_500, 0);
    for round in 0..lists {
        let list = if round % 3 == 0 { arrivals::narrow_list(draw) } else { arrivals::list(draw) };
        compare.hold(keeps_to_the_limits(&list), "a drawn list passes the limits");
        let ended = end(compare, &list);
        let others = (0..2).filter_map(|_| if list.len() > 1 { arrivals::reordered(draw, &list) } else { None });
        for other in others {
            compare.hold(end(compare, &other) == ended, &format!("{list:?} and {other:?} end otherwise"));
            orders += 1;
        }
    }
    (lists, orders)
}

/// Runs the calls of the list from the fresh record; gives the last record and its reports.
fn end(compare: &Compare, list: &[Arrival]) -> (Vec<u64>, Vec<u8>, Vec<u8>) {
    let mut source = Lent::new(&[0; WORDS]);
    for &(number, mark) in list {
        let answer = arrive(compare, &mut source, wire(number), mark);
        compare.hold(answer == if mark > 3 { 10 } else { 0 }, &format!("{number} with mark {mark} answers {answer}"));
    }
    let record = source.part().to_vec();
    let truth = counted(list);
    compare.hold(record == truth.to_words(), &format!("{list:?} ends in {record:?}, not {truth:?}"));
    compare.hold(Source::from_words(&record).is_ok_and(|source| source.lost() == lost(list)), "lost differs");
    let feedback = feedback(compare, &record, 9, 1, &[0; 32]);
    let summary = summary(compare, &record, 1, &[0; 24]);
    (record, feedback, summary)
}

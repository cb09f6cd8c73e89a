//! Document 02, L10: times that need form 2, and traces that go to the other form and back.
use crate::feed::Feed;
use draw::{blocks, traces, Draw};
use model::forms::{converted, listed, packed, Listed};
use model::refusal::{Refusal, FORM_TWO};
use model::trace::*;

/// Going to form 1, in each block and at its first, its last or another record a time on both sides of 2^32, and the longest; the records before that
/// block come out, and none of its own. Gives how many.
pub fn long_times(ecnforms: &Feed, draw: &Draw) -> u64 {
    let (most, mut count) = (9, 0);
    for refused in 1..=most {
        for (time, fault) in [((1 << 32) - 1, None), (1 << 32, Some(FORM_TWO)), ((1 << 48) - 1, Some(FORM_TWO))] {
            for place in 0..3 {
                let (trace, before) = with_time(draw, most, refused, place, time);
                let (out, err) = ecnforms.file(&trace);
                let told = fault.map_or(String::new(), |fault: Refusal| format!("refused {} block {refused}\r\n", fault.number()));
                let all = listed(&out).0.map(|listed| listed.records.len());
                let whole = listed(&trace).0.map(|listed| listed.records.len());
                let as_wanted = if fault.is_some() { all == Some(before) } else { all == whole };
                ecnforms.hold(err == told.as_bytes() && as_wanted, &trace, &format!("the time {time} in block {refused}"));
                count += 1;
            }
        }
    }
    count
}

/// A block with a time that needs form 2 and another fault is refused for that one: 14 for the SSRC and for a mark, 13, 1. Gives how many.
pub fn other_faults_first(ecnforms: &Feed, draw: &Draw) -> u64 {
    let (trace, _) = with_time(draw, 3, 2, 1, 1 << 32);
    let (at, end) = (2 * BLOCK, 3 * BLOCK);
    let faults: [(&str, &dyn Fn(&mut Vec<u8>)); 4] = [
        ("14", &|trace| trace[at + 7] ^= 1),
        ("14", &|trace| trace[at + 8 + 8] = 4),
        ("13", &|trace| trace[at + CHECK] ^= 1),
        ("1", &|trace| trace.truncate(end - 1)),
    ];
    for (number, fault) in faults {
        let mut faulty = trace.clone();
        fault(&mut faulty);
        if number == "14" {
            set_check(&mut faulty[at..end]);
        }
        let (_, err) = ecnforms.file(&faulty);
        ecnforms.hold(err == format!("refused {number} block 2\r\n").as_bytes(), &faulty, "another fault comes before 17");
    }
    faults.len() as u64
}

/// A trace of form 2 whose times fit form 1 but for that one, and the number of records in the blocks before its block.
fn with_time(draw: &Draw, most: usize, block: usize, place: usize, time: u64) -> (Vec<u8>, usize) {
    let mut trace = label_block(Form::Two, b"ten weeks", 7).unwrap();
    let mut before = 0;
    for index in 1..=most {
        let mut records = blocks::records(draw, Form::Two, Form::One.times());
        if index < block {
            before += records.len();
        }
        if index == block {
            let last = records.len() - 1;
            records[[0, last, draw.index(last + 1)][place]].time = time;
        }
        trace.extend(arrivals_block(Form::Two, &records, 7).unwrap());
    }
    (trace, before)
}

/// Traces of both forms whose times fit both, some of them with each block full but perhaps the last: these give the same bytes, the others the same
/// label and records, and all the same last line of the table. Gives how many, and how many of full blocks.
pub fn there_and_back(ecntable: &Feed, ecnforms: &Feed, draw: &Draw) -> (u64, u64) {
    let (mut count, mut full) = (0, 0);
    while count < 600 {
        let mut trace = traces::sound(draw, 12);
        let (Some(listed), None) = listed(&trace) else { continue };
        if draw.one_in(2) {
            trace = packed(listed.label.form, &listed);
        }
        let is_full = packed(listed.label.form, &listed) == trace;
        go_and_come(ecntable, ecnforms, &trace, &listed, is_full);
        (count, full) = (count + 1, full + u64::from(is_full));
    }
    (count, full)
}

fn go_and_come(ecntable: &Feed, ecnforms: &Feed, trace: &[u8], before: &Listed, is_full: bool) {
    let (there, told) = ecnforms.file(trace);
    let (back, told_back) = ecnforms.file(&there);
    ecnforms.hold(told.is_empty() && told_back.is_empty(), trace, "neither way is refused");
    ecnforms.hold(listed(&back) == (Some(before.clone()), None), trace, "back are the same label and records");
    ecnforms.hold(!is_full || back == trace, trace, "full blocks come back as the same bytes");
    ecnforms.hold(converted(&back).0 == there, trace, "it goes there again");
    let last = |table: Vec<u8>| table.split_inclusive(|&byte| byte == b'\n').last().map(<[u8]>::to_vec);
    let [one, other] = [trace, &there].map(|trace| last(ecntable.file(trace).0));
    ecntable.hold(one == other, trace, "both forms have one last line of the table");
}

//! The traces of both forms that are tried; each function gives how many.
use crate::feed::Feed;
use draw::{blocks, traces, Draw};
use model::trace::*;
use std::fs::{read as file, read_dir};

/// Each .trace of the folder has its table beside it, and the model makes the same.
pub fn samples(feed: &Feed, folder: &str) -> u64 {
    let mut count = 0;
    for entry in read_dir(folder).expect("the folder of samples") {
        let path = entry.expect("a file").path();
        if path.extension().is_some_and(|extension| extension == "trace") {
            let trace = file(&path).expect("a trace");
            feed.expect(&trace, &(file(path.with_extension("csv")).expect("a table beside the trace"), Vec::new()));
            feed.file(&trace);
            count += 1;
        }
    }
    assert!(count > 0, "no samples in {folder}");
    count
}

pub fn whole_traces(feed: &Feed, draw: &Draw) -> u64 {
    feed.file(&[]);
    feed.pipe(draw, &[]);
    for label in ["", "plain", ",", "\"", "\"\"", "\r", "\n", "a\r\nb", " lead", "trail ", ",\"\r\n~"] {
        FORMS.iter().for_each(|&form| drop(feed.file(&label_block(form, label.as_bytes(), 1).unwrap())));
    }
    for _ in 0..400 {
        feed.file(&traces::sound(draw, 12));
        feed.pipe(draw, &traces::sound(draw, 40));
    }
    2 + 2 * 11 + 800
}

/// A trace of a label and so many blocks of one form.
fn trace_of(draw: &Draw, form: Form, label: &[u8], ssrc: u32, blocks: usize) -> Vec<u8> {
    let mut trace = label_block(form, label, ssrc).unwrap();
    (0..blocks).for_each(|_| trace.extend(arrivals_block(form, &blocks::records(draw, form, Form::One.times()), ssrc).unwrap()));
    trace
}

/// One trace of three blocks in each form, cut at each length.
pub fn cut_tails(feed: &Feed, draw: &Draw) -> u64 {
    let mut count = 0;
    for form in FORMS {
        let trace = trace_of(draw, form, b"cut, short", 5, 2);
        (0..=trace.len()).for_each(|length| drop(feed.file(&trace[..length])));
        count += trace.len() as u64 + 1;
    }
    count
}

/// Traces around the ends of pieces of 64 KiB, of 128 KiB and of 512 KiB, with the longest labels, whole, cut and with one block damaged.
pub fn long_traces(feed: &Feed, draw: &Draw) -> u64 {
    let mut count = 0;
    for length in [127, 128, 129, 255, 256, 257, 258, 384, 512, 513, 514, 769, 770, 1_024, 1_025, 1_026, 3_000] {
        let label = if draw.one_in(2) { vec![b'"'; 502] } else { vec![b'x'; 502] };
        let mut trace = trace_of(draw, draw.of(&FORMS), &label, 77, length - 1);
        feed.file(&trace);
        feed.pipe(draw, &trace);
        for block in [length - 2, length - 1] {
            let mut cut = trace[..BLOCK * block + draw.index(BLOCK)].to_vec();
            feed.pipe(draw, &cut);
            cut.truncate(BLOCK * block);
            blocks::flip(draw, &mut cut[BLOCK * (block - 1)..]);
            feed.file(&cut);
        }
        trace[BLOCK * (length / 2) + 5] ^= 1;
        set_check(&mut trace[BLOCK * (length / 2)..BLOCK * (length / 2 + 1)]);
        feed.file(&trace);
        count += 7;
    }
    count
}

pub fn mutations(feed: &Feed, draw: &Draw) -> u64 {
    for _ in 0..2_500 {
        feed.file(&traces::damaged(draw, traces::sound(draw, 5)));
        feed.file(&traces::damaged(draw, traces::sound(draw, 1)));
    }
    for _ in 0..500 {
        feed.pipe(draw, &traces::damaged(draw, traces::sound(draw, 20)));
        feed.file(&draw.bytes(draw.index(3 * BLOCK)));
    }
    6_000
}

/// Traces of 0 to 18 sources, whole and damaged.
pub fn streams(feed: &Feed, draw: &Draw) -> u64 {
    for _ in 0..600 {
        feed.file(&traces::streams(draw, 60));
        feed.pipe(draw, &traces::streams(draw, 90));
        feed.file(&traces::damaged(draw, traces::streams(draw, 12)));
        feed.file(&traces::damaged(draw, traces::streams(draw, 60)));
    }
    2_400
}

/// One block each of sixteen sources in any order, and of a seventeenth, which is refused with 15 before a later fault; and one that is held.
pub fn seventeen(feed: &Feed, draw: &Draw) -> u64 {
    for form in FORMS {
        let mut ssrcs: Vec<u32> = (0..17).map(|source| 1_000 * source).collect();
        draw.shuffle(&mut ssrcs);
        let mut trace = label_block(form, b"seventeen", 1).unwrap();
        let block = |ssrc| arrivals_block(form, &blocks::records(draw, form, Form::One.times()), ssrc).unwrap();
        ssrcs[..16].iter().for_each(|&ssrc| trace.extend(block(ssrc)));
        trace.extend(block(ssrcs[3]));
        let (whole, _) = feed.file(&trace);
        feed.hold(whole.split(|&byte| byte == b'\n').count() == 18, &trace, "sixteen sources have sixteen rows");
        trace.extend(block(ssrcs[16]));
        trace.extend([9; BLOCK]);
        let (refused, _) = feed.file(&trace);
        feed.hold(refused.ends_with(b"restarts\r\nrefused 15 block 18\r\n"), &trace, "the seventeenth is refused, and no row is printed");
    }
    4
}

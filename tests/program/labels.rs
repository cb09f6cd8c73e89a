//! Document 02, L14: traces with retired bytes in the label, and what is proved of their copies.
use crate::feed::Feed;
use draw::{traces, Draw};
use model::labels::{is_retired, new_label_block};
use model::trace::*;
use std::fs::read as file;

/// The sample with returns in its label, and its copy beside it.
pub fn sample(ecnlabel: &Feed, folder: &str) {
    let [trace, copy] = ["returns", "spaced"].map(|name| file(format!("{folder}/{name}.trace")).expect("a sample"));
    ecnlabel.expect(&trace, &(copy.clone(), b"3\r\n".to_vec()));
    ecnlabel.expect(&copy, &(copy.clone(), b"0\r\n".to_vec()));
}

/// Whole traces and damaged ones. Gives how many.
pub fn copies(programs: &[&Feed; 3], draw: &Draw) -> u64 {
    for _ in 0..600 {
        whole(programs, &traces::with_old_label(draw, 8));
        programs[2].pipe(draw, &traces::with_old_label(draw, 40));
        programs[2].file(&traces::damaged(draw, traces::with_old_label(draw, 8)));
    }
    1_800
}

/// A sound trace. Its copy has the label spaced and every other byte; its own copy is itself, with 0; no block of it is refused by ecntable, and by
/// ecnforms with nothing but 17; the label is one that the writer takes; the rows are the same after the label.
fn whole([ecntable, ecnforms, ecnlabel]: &[&Feed; 3], trace: &[u8]) {
    let (copy, told) = ecnlabel.file(trace);
    let (old, new) = (zeroth(&trace[..BLOCK]).unwrap(), zeroth(&copy[..BLOCK]).unwrap());
    let retired = old.text.iter().filter(|&&byte| is_retired(byte)).count();
    let spaced = old.text.iter().zip(&new.text).all(|(&old, &new)| if is_retired(old) { new == b' ' } else { new == old });
    let same = (old.form, old.ssrc, old.text.len()) == (new.form, new.ssrc, new.text.len()) && trace[BLOCK..] == copy[BLOCK..];
    ecnlabel.hold(spaced && same && trace.len() == copy.len(), trace, "every other byte is copied");
    ecnlabel.hold(retired > 0 && told == format!("{retired}\r\n").as_bytes(), trace, "the number of retired bytes is printed");
    ecnlabel.hold(new_label_block(new.form, &new.text, new.ssrc).is_ok(), trace, "the writer takes the label");
    ecnlabel.hold(ecnlabel.file(&copy) == (copy.clone(), b"0\r\n".to_vec()), trace, "the copy of the copy is the copy");
    let refused = String::from_utf8(ecnforms.file(&copy).1).unwrap();
    ecnforms.hold(refused.is_empty() || refused.starts_with("refused 17 "), trace, "the copy goes to the other form");
    let [before, after] = [trace, &copy].map(|trace| numbers(&ecntable.file(trace).0, trace));
    ecntable.hold(before == after && before.len() == trace.len() / BLOCK - 1, trace, "the rows are the same after the label");
}

/// What stands after the label in each row of a whole table.
fn numbers(table: &[u8], trace: &[u8]) -> Vec<Vec<u8>> {
    let label = zeroth(&trace[..BLOCK]).unwrap().text;
    let quoted = label.iter().any(|byte| b",\"\r\n".contains(byte));
    let length = label.len() + if quoted { 2 + label.iter().filter(|&&byte| byte == b'"').count() } else { 0 };
    let mut rows = Vec::new();
    let mut rest = &table[model::table::HEAD.len()..];
    while rest.len() > length {
        let end = length + rest[length..].iter().position(|&byte| byte == b'\n').expect("the row ends") + 1;
        rows.push(rest[length..end].to_vec());
        rest = &rest[end..];
    }
    rows
}

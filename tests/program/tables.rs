//! Traces for table.py, and beside each one a line for each row: the label in hexadecimal, then the numbers.
use draw::{traces, Draw};
use model::converter::{Run, Totals};
use model::table::numbers;
use model::trace::{Label, BLOCK};
use std::fs::write as write_file;

pub fn write(draw: &Draw, folder: &str, count: u64) {
    for number in 0..count {
        let trace = traces::sound(draw, 9);
        write_file(format!("{folder}/{number}.trace"), &trace).expect("the trace is written");
        write_file(format!("{folder}/{number}.rows"), rows(&trace)).expect("the rows are written");
    }
}

fn rows(trace: &[u8]) -> String {
    let mut run = Run::default();
    let mut lines = String::new();
    for block in trace.chunks(BLOCK) {
        if run.block(block) == Ok(true) {
            let Label { ssrc, text, .. } = run.label.as_ref().unwrap();
            let hexadecimal: String = text.iter().map(|byte| format!("{byte:02x}")).collect();
            let Totals { source, jumped, restarts } = &run.totals;
            let numbers = numbers(*ssrc, source, *jumped, *restarts).map(|number| number.to_string()).join(",");
            lines += &format!("{hexadecimal},{numbers}\n");
        }
    }
    lines
}

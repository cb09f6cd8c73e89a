//! Runs a program on one trace and holds what it prints to the model's.
use draw::Draw;
use std::cell::RefCell;
use std::collections::BTreeMap;
use std::fs::{write, File};
use std::io::Write;
use std::process::{Command, Output, Stdio};

/// Standard output and standard error.
pub type Printed = (Vec<u8>, Vec<u8>);

pub struct Feed {
    program: String,
    model: fn(&[u8]) -> Printed,
    trace: String,
    seed: u64,
    /// How many runs ended with each refusal.
    refused: RefCell<BTreeMap<String, u64>>,
}

impl Feed {
    pub fn new(program: String, model: fn(&[u8]) -> Printed, folder: &str, seed: u64) -> Feed {
        Feed { program, model, trace: format!("{folder}/fed.trace"), seed, refused: RefCell::default() }
    }

    /// The trace as a file on standard input. Gives what is printed, which is what the model says.
    pub fn file(&self, trace: &[u8]) -> Printed {
        let printed = (self.model)(trace);
        self.expect(trace, &printed);
        printed
    }

    /// The trace as a file on standard input, and these outputs.
    pub fn expect(&self, trace: &[u8], expected: &Printed) {
        write(&self.trace, trace).expect("the trace is written");
        let input = File::open(&self.trace).expect("the trace opens");
        let output = Command::new(&self.program).stdin(input).output().expect("the program starts");
        self.judge(trace, &output, expected);
    }

    /// The trace through a pipe, in pieces of drawn sizes.
    pub fn pipe(&self, draw: &Draw, trace: &[u8]) {
        let (stdin, stdout, stderr) = (Stdio::piped(), Stdio::piped(), Stdio::piped());
        let mut child = Command::new(&self.program).stdin(stdin).stdout(stdout).stderr(stderr).spawn().expect("the program starts");
        let mut input = child.stdin.take().expect("a pipe");
        let most = draw.of(&[1 << 9, 1 << 12, 1 << 16, 1 << 20]);
        let mut pieces = Vec::new();
        let mut rest = trace;
        while !rest.is_empty() {
            let (piece, after) = rest.split_at(rest.len().min(draw.within(1, most) as usize));
            pieces.push(piece);
            rest = after;
        }
        let output = std::thread::scope(|scope| {
            // A program stops reading at the first refused block: a write that fails then is no fault.
            scope.spawn(move || pieces.iter().all(|piece| input.write_all(piece).and_then(|()| input.flush()).is_ok()));
            child.wait_with_output().expect("the program ends")
        });
        self.judge(trace, &output, &(self.model)(trace));
    }

    fn judge(&self, trace: &[u8], output: &Output, (out, err): &Printed) {
        if output.status.code() != Some(0) || output.stdout != *out || output.stderr != *err {
            println!(" printed  {} and {}", output.stdout.escape_ascii(), output.stderr.escape_ascii());
            println!(" expected {} and {}", out.escape_ascii(), err.escape_ascii());
            self.fail(trace, &output.status.to_string());
        }
        let last = |bytes: &[u8]| String::from_utf8_lossy(bytes).lines().last().map(str::to_string).unwrap_or_default();
        let line = if err.is_empty() { last(out) } else { last(err) };
        if let Some((number, _)) = line.strip_prefix("refused ").and_then(|rest| rest.split_once(" block ")) {
            *self.refused.borrow_mut().entry(number.to_string()).or_default() += 1;
        }
    }

    /// Each of these refusals has occurred, and no other. Gives how often, for a line of print.
    pub fn refusals(&self, possible: &[&str]) -> String {
        let refused = self.refused.borrow();
        let found: Vec<&str> = refused.keys().map(String::as_str).collect();
        self.hold(found == possible, &[], &format!("the refusals {found:?} and not {possible:?} have occurred"));
        refused.iter().map(|(number, count)| format!("{number}: {count}")).collect::<Vec<_>>().join(", ")
    }

    /// A statement about what is printed for a trace that has no other form.
    pub fn hold(&self, holds: bool, trace: &[u8], what: &str) {
        if !holds {
            self.fail(trace, what);
        }
    }

    fn fail(&self, trace: &[u8], what: &str) -> ! {
        write(&self.trace, trace).expect("the trace is written");
        println!("program: FAILED, seed {}: {} on {}: {what}", self.seed, self.program, self.trace);
        std::process::exit(1);
    }
}

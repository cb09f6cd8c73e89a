//! One call of the library held to the model, and the count of calls and answers.
use crate::calls::{Calls, FUNCTIONS, RESTART};
use crate::expected::Expected;
use crate::library::Library;
use std::cell::RefCell;
use std::collections::BTreeMap;
use std::fmt::Debug;

pub struct Compare {
    seed: u64,
    only: Option<Vec<String>>,
    answers: RefCell<BTreeMap<(&'static str, i64), u64>>,
}

impl Compare {
    pub fn new(seed: u64, only: Option<&str>) -> Compare {
        let only = only.map(|names| names.split(',').map(str::to_string).collect());
        Compare { seed, only, answers: RefCell::default() }
    }

    fn takes(&self, name: &str) -> bool {
        self.only.as_ref().is_none_or(|names| names.iter().any(|only| only == name))
    }

    /// Calls the library and the model with the same arguments, what is lent among them. Gives the answer; `lent` is as after the call.
    pub fn call<L: Clone + PartialEq + Debug>(&self, name: &'static str, lent: &mut L, call: impl Fn(&dyn Calls, &mut L) -> i64) -> i64 {
        let before = lent.clone();
        let expected = call(&Expected, lent);
        if !self.takes(name) {
            return expected;
        }
        let mut after = before.clone();
        let answer = call(&Library, &mut after);
        if answer != expected || after != *lent {
            let number = self.calls() + 1;
            self.fail(&format!(
                "{name} (call {number}) answers {answer}, the model {expected}\n lent     {before:?}\n after    {after:?}\n expected {lent:?}"
            ));
        }
        *self.answers.borrow_mut().entry((name, class(name, answer))).or_default() += 1;
        answer
    }

    /// A statement about the library's answers that has no other form.
    pub fn hold(&self, holds: bool, what: &str) {
        if !holds {
            self.fail(what);
        }
    }

    pub fn fail(&self, what: &str) -> ! {
        println!("compare: FAILED, seed {}: {what}", self.seed);
        std::process::exit(1);
    }

    pub fn calls(&self) -> u64 {
        self.answers.borrow().values().sum()
    }

    pub fn functions(&self) -> usize {
        FUNCTIONS.iter().filter(|(name, _)| self.takes(name)).count()
    }

    /// Every answer that a function can give has occurred, and no other.
    pub fn close(&self, table: Option<&str>) {
        for (name, possible) in FUNCTIONS.iter().filter(|(name, _)| self.takes(name)) {
            for answer in possible.iter() {
                self.hold(self.answers.borrow().contains_key(&(*name, *answer)), &format!("{name} never answered {answer}"));
            }
        }
        let answers = self.answers.borrow();
        let lines: Vec<String> = answers.iter().map(|((name, answer), count)| format!("{name} {answer} {count}\n")).collect();
        if let Some(path) = table {
            std::fs::write(path, lines.concat()).expect("the table is written");
        }
    }
}

/// A length counts as 0, a writer's 12 with any size as -12, a fed block's refusal with any length as minus its number, of a difference its sign, and of a
/// block's jumps and restarts and of a label's retired bytes whether there are any.
fn class(name: &str, answer: i64) -> i64 {
    let possible = FUNCTIONS.iter().find(|(function, _)| *function == name).expect("a function of the header").1;
    if name.ends_with("count_block") && answer >= 0 {
        (answer / RESTART).min(1) * RESTART + (answer % RESTART).min(1)
    } else if name == "flasknib_space_label" && answer >= 0 || name.contains("since") {
        answer.signum()
    } else if possible.iter().any(|&answer| answer < 0) {
        answer.min(0) % 256
    } else {
        answer
    }
}

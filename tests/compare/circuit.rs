//! flasknib_breaker_start, both functions for a report, flasknib_breaker_tick and flasknib_breaker_heard: single calls on records of every kind, and whole runs.
use crate::calls::Settings;
use crate::compare::Compare;
use crate::lent::Lent;
use draw::{breakers, Draw};
use model::breaker::*;

pub fn calls(compare: &Compare, draw: &Draw) {
    for _ in 0..40_000 {
        let settings = any_settings(draw);
        let mut breaker = Lent::new(&vec![draw.u64(); draw.sized(WORDS)]);
        start(compare, &mut breaker, settings, draw.astray(0, TIMES - 1));
    }
    for _ in 0..120_000 {
        let words = breakers::any(draw);
        let near = Breaker::from_words(&words).unwrap_or_else(|_| breakers::sound(draw));
        report(compare, &mut Lent::new(&words), &breakers::report(draw, &near));
        tick(compare, &mut Lent::new(&words), breakers::time(draw, &near));
        heard(compare, &mut Lent::new(&words), breakers::time(draw, &near));
    }
    for _ in 0..4_000 {
        run(compare, draw);
    }
}

pub fn start(compare: &Compare, breaker: &mut Lent<u64>, settings: Settings, time: u64) -> i64 {
    compare.call("flasknib_breaker_start", breaker, |calls, breaker| i64::from(calls.breaker_start(settings, time, breaker.part_mut())))
}

pub fn report(compare: &Compare, breaker: &mut Lent<u64>, report: &Report) -> i64 {
    let name = match report.loss {
        Loss::Fraction(_) => "flasknib_breaker_report",
        Loss::Counts { .. } => "flasknib_breaker_report_ecn",
    };
    compare.call(name, breaker, |calls, breaker| i64::from(calls.breaker_report(breaker.part_mut(), report)))
}

pub fn tick(compare: &Compare, breaker: &mut Lent<u64>, time: u64) -> i64 {
    compare.call("flasknib_breaker_tick", breaker, |calls, breaker| i64::from(calls.breaker_tick(breaker.part_mut(), time)))
}

pub fn heard(compare: &Compare, breaker: &mut Lent<u64>, time: u64) -> i64 {
    compare.call("flasknib_breaker_heard", breaker, |calls, breaker| i64::from(calls.breaker_heard(breaker.part_mut(), time)))
}

fn any_settings(draw: &Draw) -> Settings {
    let choice = || if draw.one_in(20) { draw.edge(2, 255) as u8 } else { draw.below(2) as u8 };
    let (reduce, full) = (choice(), choice());
    Settings { k: draw.astray(1, 32), m: draw.astray(1, 32), timeout: draw.astray(1, MOST_TIMEOUT), reduce, full }
}

/// Reports, ticks and heard packets from a start; most rates are around the greatest that goes, most numbers ahead.
fn run(compare: &Compare, draw: &Draw) {
    let (reduce, full) = (draw.below(2) as u8, draw.below(2) as u8);
    let settings = Settings { k: draw.within(1, 5), m: draw.within(1, 4), timeout: draw.within(2, 20_000), reduce, full };
    let mut breaker = Lent::new(&[0; WORDS]);
    start(compare, &mut breaker, settings, draw.below(1_000));
    let (rtt, size, usual) = (draw.within(1, 300), draw.within(100, 1_500), draw.below(60));
    let simplified = 196_000 * size / (rtt * (usual + 10).isqrt());
    // The full equation is below the simplified one by 1 + 9p (1 + 32 p^2).
    let greatest = match (full, (usual + 10) as f64 / 256.0) {
        (1, p) => (simplified as f64 / (1.0 + 9.0 * p * (1.0 + 32.0 * p * p))) as u64,
        _ => simplified,
    };
    for _ in 0..draw.within(5, 80) {
        let now = Breaker::from_words(breaker.part()).unwrap();
        let rate = if draw.one_in(12) { 0 } else { (greatest * draw.within(4, 18) / 16).clamp(1, MOST_RATE) };
        let time = now.time.max(now.heard) + draw.within(1, (settings.timeout - 1).min(9_000));
        let last = now.number.unwrap_or(0) as u32;
        let number = if draw.one_in(4) { breakers::number(draw, last) } else { last.wrapping_add(9) };
        let loss = breakers::loss_of(draw, usual + draw.below(20));
        match draw.below(12) {
            0 => drop(report(compare, &mut breaker, &breakers::report(draw, &now))),
            1 | 2 => drop(tick(compare, &mut breaker, breakers::time(draw, &now))),
            3 => drop(heard(compare, &mut breaker, breakers::time(draw, &now))),
            4 => drop(heard(compare, &mut breaker, time)),
            _ => drop(report(compare, &mut breaker, &Report { time, number, loss, rtt, size, rate })),
        }
    }
}

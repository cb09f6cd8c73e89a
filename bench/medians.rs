//! Interleaved rounds and their medians.
use std::fs::OpenOptions;
use std::io::Write;
use std::time::Duration;

/// A clock of the system by its number: what has passed since a fixed moment.
#[derive(Clone, Copy)]
pub struct Clock(pub i32);

extern "C" {
    fn clock_gettime(clock: i32, time: *mut [i64; 2]) -> i32;
}

impl Clock {
    fn now(self) -> Duration {
        let mut time = [0; 2];
        let status = unsafe { clock_gettime(self.0, &mut time) };
        assert_eq!(status, 0, "the clock answers");
        Duration::new(time[0] as u64, time[1] as u32)
    }
}

/// A setting from the environment, or its default.
pub fn setting(name: &str, default: usize) -> usize {
    std::env::var(name).ok().and_then(|text| text.parse().ok()).unwrap_or(default)
}

/// Adds a figure to the file that FIGURES names, if it does: a line of JSON with the time of ours and that of the other, in one unit.
pub fn figure(table: &str, what: &str, input: &str, ours: f64, other: &str, its: f64) {
    if let Some(path) = std::env::var_os("FIGURES") {
        let mut file = OpenOptions::new().append(true).create(true).open(path).expect("the file of figures");
        let line = format!("{{\"table\": {table:?}, \"what\": {what:?}, \"input\": {input:?}, \"other\": {other:?}, \"ours\": {ours}, \"its\": {its}}}");
        writeln!(file, "{line}").expect("room for a figure");
    }
}

/// Runs all in turn, `rounds` times, and gives the median of each in seconds. A first round is not counted, and what is done before each run is not
/// timed.
pub fn medians(clock: Clock, rounds: usize, before: impl Fn(), runs: &mut [Box<dyn FnMut() + '_>]) -> Vec<f64> {
    let mut times = vec![Vec::new(); runs.len()];
    for round in 0..=rounds {
        for (run, taken) in runs.iter_mut().zip(&mut times) {
            before();
            let begin = clock.now();
            run();
            let time = (clock.now() - begin).as_secs_f64();
            if round > 0 {
                taken.push(time);
            }
        }
    }
    times.into_iter().map(median).collect()
}

fn median(mut times: Vec<f64>) -> f64 {
    times.sort_by(f64::total_cmp);
    times[times.len() / 2]
}

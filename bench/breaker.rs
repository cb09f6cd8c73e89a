//! The circuit breaker of document 01 and of document 02's L4 in plain Rust, with the same check of its record before each report.

const MOST_TIME: u64 = 1 << 48;
const MOST_LENGTH: u64 = 10_000_000;

#[derive(Clone)]
pub struct Report {
    pub time: u64,
    pub highest: u32,
    pub fraction: u64,
    pub rtt: u64,
    pub size: u64,
    pub rate: u64,
}

#[derive(Clone)]
pub struct Breaker {
    k: usize,
    m: u64,
    timeout: u64,
    reduce: bool,
    state: u16,
    time: u64,
    heard: u64,
    reported: bool,
    highest: u32,
    run: u64,
    trial: bool,
    count: usize,
    window: [(u64, u64); 32],
}

impl Breaker {
    pub fn start(k: usize, m: u64, timeout: u64, time: u64) -> Breaker {
        Breaker {
            k,
            m,
            timeout,
            reduce: false,
            state: 0,
            time,
            heard: time,
            reported: false,
            highest: 0,
            run: 0,
            trial: false,
            count: 0,
            window: [(0, 0); 32],
        }
    }

    fn is_sound(&self) -> bool {
        let settings = (1..=32).contains(&self.k) && (1..=32).contains(&self.m) && (1..=600_000).contains(&self.timeout);
        let counts = self.state <= 3 && self.count <= self.k && (self.state != 0 || self.run < self.m);
        settings
            && counts
            && self.time < MOST_TIME
            && self.heard < MOST_TIME
            && (self.reported || self.highest == 0)
            && self.window[..self.count].iter().all(|&(long, f)| (1..=MOST_LENGTH).contains(&long) && f <= 255)
            && self.window[self.count..].iter().all(|&place| place == (0, 0))
    }

    fn exceeds(&self, r: &Report) -> bool {
        let window = &self.window[..self.k];
        let w: u64 = window.iter().map(|&(long, _)| long).sum();
        let p: u64 = window.iter().map(|&(long, f)| long * f).sum();
        let [rate, rtt, size, w, p] = [r.rate, r.rtt, r.size, w, p].map(u128::from);
        rate * rate * rtt * rtt * p > 38_400_000_000 * size * size * w
    }

    fn stop(&mut self, reason: u16) -> u16 {
        self.state = reason;
        0x100 + reason
    }

    fn store(&mut self, r: &Report, run: u64) {
        (self.time, self.heard, self.highest, self.reported, self.run) = (r.time, r.time, r.highest, true, run);
    }

    /// Go 0, Reduce 1, 0x100 + the reason of a stop, or 0x200 + a refusal.
    #[inline(always)]
    pub fn report(&mut self, r: &Report) -> u16 {
        if !self.is_sound() {
            return 0x209;
        }
        if self.state != 0 {
            return 0x100 + self.state;
        }
        let size = (1..=65_535).contains(&r.size);
        if r.time >= MOST_TIME || r.fraction > 255 || r.rtt > 60_000 || !size || r.rate > 125_000_000 {
            return 0x20a;
        }
        if r.time <= self.time || r.time < self.heard {
            return 0x20b;
        }
        self.ruled(r)
    }

    #[inline(always)]
    fn ruled(&mut self, r: &Report) -> u16 {
        if r.rate == 0 {
            (self.count, self.window) = (0, [(0, 0); 32]);
            self.store(r, 0);
            return 0;
        }
        if r.time - self.heard >= self.timeout {
            return self.stop(1);
        }
        let ahead = r.highest.wrapping_sub(self.highest);
        let run = if self.reported && (ahead == 0 || ahead >= 1 << 31) { self.run + 1 } else { 0 };
        if run == self.m {
            return self.stop(2);
        }
        let before = (self.count, self.window);
        if self.reported {
            self.window.copy_within(0..self.k - 1, 1);
            self.window[0] = ((r.time - self.time).min(MOST_LENGTH), r.fraction);
            self.count = (self.count + 1).min(self.k);
        }
        let tested = self.reported && self.count == self.k;
        if tested && self.exceeds(r) {
            if self.trial || !self.reduce {
                (self.count, self.window) = before;
                return self.stop(3);
            }
            (self.count, self.window, self.trial) = (0, [(0, 0); 32], true);
            self.store(r, run);
            return 1;
        }
        self.trial &= !tested;
        self.store(r, run);
        0
    }
}

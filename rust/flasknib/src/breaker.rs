//! The sender's circuit breaker (RFC 8083): it says when to stop sending, and why.
use crate::header::{self, BREAKER_MOST_RATE, BREAKER_MOST_RTT, BREAKER_WORDS, CALL_WORDS, KEPT_WORDS};
use crate::refusals::{accepted, Refused, Result};
use crate::reports::{read_compound, Between, Compound, Profile};

/// Why to stop.
#[derive(Clone, Copy, Debug, PartialEq, Eq)]
pub enum Reason {
    /// No report and no heard packet for the timeout.
    Timeout,
    /// Reports in a row with no new number.
    Media,
    /// A rate above ten times the throughput equation.
    Congestion,
}

/// What a call says.
#[derive(Clone, Copy, Debug, PartialEq, Eq)]
pub enum Answer {
    /// Go on sending.
    Go,
    /// Send at a tenth of the rate or less.
    Reduce,
    /// Stop sending: a breaker that has stopped stays so.
    Stop(Reason),
}

/// How a breaker is set; the default is document 01's preset.
#[derive(Clone, Copy, Debug, PartialEq, Eq)]
pub struct Settings {
    /// Intervals over which the congestion rule takes the losses.
    pub k: u64,
    /// Reports in a row with no new number, after which it stops.
    pub m: u64,
    /// The ms without a report or a heard packet, after which it stops.
    pub timeout: u64,
    /// Whether it may ask for a reduction before it stops.
    pub reduce: bool,
    /// Whether it takes the full throughput equation.
    pub full: bool,
}

impl Default for Settings {
    fn default() -> Settings {
        Settings {
            k: header::PRESET_K as u64,
            m: header::PRESET_M as u64,
            timeout: header::PRESET_TIMEOUT as u64,
            reduce: header::PRESET_REDUCE != 0,
            full: header::PRESET_FULL != 0,
        }
    }
}

/// How we send.
#[derive(Clone, Copy, Debug, PartialEq, Eq)]
pub struct Sending {
    /// The round trip in ms.
    pub rtt: u64,
    /// The bytes of a packet.
    pub size: u64,
    /// The bytes sent per second.
    pub rate: u64,
}

fn answered(answer: u16) -> Result<Answer> {
    let number = usize::from(answer);
    if number >= header::REFUSED {
        return Err(Refused::of((number - header::REFUSED) as u8));
    }
    Ok(match number.checked_sub(header::STOP) {
        Some(header::REASON_TIMEOUT) => Answer::Stop(Reason::Timeout),
        Some(header::REASON_MEDIA) => Answer::Stop(Reason::Media),
        Some(_) => Answer::Stop(Reason::Congestion),
        None if number == header::REDUCE => Answer::Reduce,
        None => Answer::Go,
    })
}

/// A breaker for one receiver, with what is kept of that receiver between its packets. Times are in ms of any clock that does not go
/// back.
#[derive(Clone, Debug, PartialEq, Eq)]
pub struct Breaker {
    words: [u64; BREAKER_WORDS],
    kept: [u64; KEPT_WORDS],
}

impl Breaker {
    /// Starts one. Refused with 10 for a setting outside its limits.
    pub fn start(time: u64, settings: Settings) -> Result<Breaker> {
        let mut breaker = Breaker { words: [0; BREAKER_WORDS], kept: [0; KEPT_WORDS] };
        let Settings { k, m, timeout, reduce, full } = settings;
        answered(header::breaker_start(k, m, timeout, reduce.into(), full.into(), time, &mut breaker.words))?;
        Ok(breaker)
    }

    /// The breaker with these words, and these kept of its receiver.
    pub fn of(words: [u64; BREAKER_WORDS], kept: [u64; KEPT_WORDS]) -> Breaker {
        Breaker { words, kept }
    }

    /// Its words.
    pub fn words(&self) -> &[u64; BREAKER_WORDS] {
        &self.words
    }

    /// What is kept of its receiver.
    pub fn kept(&self) -> &[u64; KEPT_WORDS] {
        &self.kept
    }

    /// An RTCP packet of the receiver came at `time`: it is read for what it reports about our SSRC `media`, and the call that it is for
    /// is made, so that marks count as losses do (RFC 8083, section 5). A round trip or a rate above its limit is taken as the limit.
    ///
    /// Refused with 1 to 6, 10 or 11, and then the packet counts for nothing: the next report counts from the one before. No refusal
    /// may be passed over in silence, since a sender that goes on without its reports is not protected.
    pub fn packet(&mut self, packet: &[u8], media: u32, time: u64, sending: Sending) -> Result<Answer> {
        self.compound(&read_compound(packet, media, Profile::ReducedSize)?, time, sending)
    }

    /// The same of a packet that has been read. Refused with 9, 10 or 11.
    pub fn compound(&mut self, compound: &Compound, time: u64, sending: Sending) -> Result<Answer> {
        let (before, mut call) = (self.kept, [0; CALL_WORDS]);
        accepted(header::breaker_call(&compound.0, &mut self.kept, &mut call))?;
        let Sending { rtt, size, rate } = sending;
        let sending = Sending { rtt: rtt.min(BREAKER_MOST_RTT as u64), size, rate: rate.min(BREAKER_MOST_RATE as u64) };
        let answer = self.called(&call, time, sending);
        if answer.is_err() {
            self.kept = before;
        }
        answer
    }

    /// The call that a packet is for.
    fn called(&mut self, call: &[u64; CALL_WORDS], time: u64, sending: Sending) -> Result<Answer> {
        let highest = call[header::CALL_HIGHEST] as u32;
        match call[header::CALL_WHICH] as usize {
            header::WHICH_REPORT_ECN => {
                let [lost, marked, expected] = [header::CALL_LOST, header::CALL_MARKED, header::CALL_EXPECTED].map(|place| call[place]);
                self.report_ecn(time, highest, Between { lost: lost as i64, marked, expected }, sending)
            }
            header::WHICH_REPORT => self.report(time, highest, call[header::CALL_FRACTION], sending),
            _ => self.heard(time),
        }
    }

    /// A report came: its highest number, and its fraction lost in 256ths. Refused with 9, 10 or 11.
    pub fn report(&mut self, time: u64, highest: u32, fraction: u64, sending: Sending) -> Result<Answer> {
        let Sending { rtt, size, rate } = sending;
        answered(header::breaker_report(&mut self.words, time, highest, fraction, rtt, size, rate))
    }

    /// A report came, with what was lost, marked and expected since the last one. Refused with 9, 10 or 11.
    pub fn report_ecn(&mut self, time: u64, highest: u32, counts: Between, sending: Sending) -> Result<Answer> {
        let (Between { lost, marked, expected }, Sending { rtt, size, rate }) = (counts, sending);
        answered(header::breaker_report_ecn(&mut self.words, time, highest, lost, marked, expected, rtt, size, rate))
    }

    /// A timer's tick: only whether the timeout has passed. Refused with 9, 10 or 11.
    pub fn tick(&mut self, time: u64) -> Result<Answer> {
        answered(header::breaker_tick(&mut self.words, time))
    }

    /// A packet that is no report was heard, which keeps the link alive. Refused with 9, 10 or 11.
    pub fn heard(&mut self, time: u64) -> Result<Answer> {
        answered(header::breaker_heard(&mut self.words, time))
    }
}

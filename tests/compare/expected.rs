//! The same calls answered by the model.
use crate::calls::{Calls, Settings, GO, LEFT_OUT, REDUCE, REFUSED, RESTART, RESTARTED, STOP};
use model::between::{between, kept_from_words, kept_to_words, lost_since, since, Carried, Packet};
use model::breaker::{Answer, Breaker, Report};
use model::compound::Profile;
use model::converter::Run;
use model::feeds::Feed;
use model::forms::Conversion;
use model::labels::{new_label_block, spaced};
use model::refusal::{put, require, Refusal, Written, JUMP, LIMITS, MALFORMED, ROOM};
use model::source::{count_block, Counted, Source};
use model::streams::Table;
use model::trace::{arrivals_block, records_block, Contents, Form, Record};
use model::{compound, forms, refusal, report, salvage, sdp, streams, table, trace};

pub struct Expected;

fn minus(refusal: Refusal) -> i64 {
    -i64::from(refusal.number())
}

/// A writer's answer in one number: 12 stands beside its size, 256 times.
fn length(written: Written) -> i64 {
    match written {
        Written::Length(length) => length as i64,
        Written::Room(size) => -(256 * size as i64 + i64::from(ROOM)),
        Written::Refused(refusal) => minus(refusal),
    }
}

fn answer(result: Result<Answer, Refusal>) -> u16 {
    match result {
        Ok(Answer::Go) => GO,
        Ok(Answer::Reduce) => REDUCE,
        Ok(Answer::Stop(reason)) => STOP + reason as u16,
        Err(refusal) => REFUSED + u16::from(refusal.number()),
    }
}

/// The words at the front of `found` and 0, or their refusal, or 12.
fn put_words(words: Result<impl AsRef<[u64]>, Refusal>, found: &mut [u64]) -> u8 {
    match words.as_ref().map(AsRef::as_ref) {
        Err(refusal) => refusal.number(),
        Ok(words) if words.len() > found.len() => ROOM,
        Ok(words) => {
            found[..words.len()].copy_from_slice(words);
            0
        }
    }
}

/// Steps the record in `words` and stores it where the call is not refused.
fn step(words: &mut [u64], call: impl Fn(&mut Breaker) -> Result<Answer, Refusal>) -> u16 {
    answer(Breaker::from_words(words).and_then(|mut breaker| {
        let answer = call(&mut breaker)?;
        words.copy_from_slice(&breaker.to_words());
        Ok(answer)
    }))
}

/// What starts in `words`, which it fills, and 0; or 9 for another number of words, or its refusal.
fn put_started<const N: usize>(start: impl FnOnce() -> Result<[u64; N], Refusal>, words: &mut [u64]) -> u8 {
    put_words(require(words.len() == N, MALFORMED).and_then(|()| start()), words)
}

/// The answer to the start of a breaker, and its record in `words`.
fn started(start: impl FnOnce() -> Result<Breaker, Refusal>, words: &mut [u64]) -> u16 {
    match put_started(|| start().map(|breaker| breaker.to_words()), words) {
        0 => GO,
        refusal => REFUSED + u16::from(refusal),
    }
}

/// The answer to an arrival.
fn arrived(answer: Result<Counted, Refusal>) -> u8 {
    match answer {
        Ok(Counted::Accepted) => 0,
        Ok(Counted::Restarted) => RESTARTED,
        Err(refusal) => refusal.number(),
    }
}

impl Calls for Expected {
    /// A jump is the one refusal that changes the record.
    fn arrive(&self, words: &mut [u64], wire: u16, mark: u8) -> u8 {
        arrived(Source::from_words(words).and_then(|mut source| {
            let answer = source.arrive(wire, mark);
            if answer.is_ok() || answer == Err(JUMP) {
                words.copy_from_slice(&source.to_words());
            }
            answer
        }))
    }

    fn count_block(&self, words: &mut [u64], records: &[u8], width: usize) -> i64 {
        match count_block(words, records, width) {
            Err(refusal) => minus(refusal),
            Ok((source, jumps, restarts)) => {
                words.copy_from_slice(&source.to_words());
                RESTART * restarts as i64 + jumps as i64
            }
        }
    }

    fn lost(&self, words: &[u64], found: &mut [u64]) -> u8 {
        put_words(Source::from_words(words).map(|source| [source.lost() as u64]), found)
    }

    /// Here too a jump is the one refusal that changes something.
    fn table_arrive(&self, words: &mut [u64], ssrc: u32, wire: u16, mark: u8) -> u8 {
        arrived(Table::from_words(words).and_then(|mut table| {
            let answer = table.arrive(ssrc, wire, mark);
            if answer.is_ok() || answer == Err(JUMP) {
                words.copy_from_slice(&table.to_words());
            }
            answer
        }))
    }

    fn table_count_block(&self, words: &mut [u64], ssrc: u32, records: &[u8], width: usize) -> i64 {
        let counted = Table::from_words(words).and_then(|mut table| Ok((table.count_block(ssrc, records, width)?, table)));
        match counted {
            Err(refusal) => minus(refusal),
            Ok(((jumps, restarts), table)) => {
                words.copy_from_slice(&table.to_words());
                RESTART * restarts as i64 + jumps as i64
            }
        }
    }

    fn table_write_compound(&self, words: &[u64], sender: u32, out: &mut [u8]) -> i64 {
        length(put(Table::from_words(words).map(|table| table.compound(sender)), out))
    }

    fn table_place(&self, words: &[u64], place: usize, found: &mut [u64]) -> u8 {
        put_words(Table::from_words(words).and_then(|table| table.place(place)), found)
    }

    fn table_held(&self, words: &[u64]) -> i64 {
        Table::from_words(words).map_or_else(minus, |table| table.held() as i64)
    }

    fn write_feedback(&self, words: &[u64], sender: u32, media: u32, out: &mut [u8]) -> i64 {
        length(put(Source::from_words(words).map(|source| report::feedback(&source, sender, media)), out))
    }

    fn write_summary(&self, words: &[u64], media: u32, out: &mut [u8]) -> i64 {
        length(put(Source::from_words(words).map(|source| report::summary(&source, media)), out))
    }

    fn read_compound(&self, bytes: &[u8], media: u32, profile: u8, found: &mut [u64]) -> u8 {
        let read = Profile::from_number(profile).and_then(|profile| compound::read(bytes, media, profile));
        put_words(read.map(|reports| reports.to_words()), found)
    }

    fn ecn_between(&self, later: &Carried, earlier: &Carried, counts: &mut [u64]) -> u8 {
        put_words(between(later, earlier), counts)
    }

    fn since16(&self, later: u16, earlier: u16) -> u16 {
        since(16, later.into(), earlier.into()) as u16
    }

    fn since32(&self, later: u32, earlier: u32) -> u32 {
        since(32, later.into(), earlier.into()) as u32
    }

    fn lost_since(&self, later: u16, earlier: u16) -> i16 {
        lost_since(later, earlier) as i16
    }

    fn breaker_start(&self, settings: Settings, time: u64, words: &mut [u64]) -> u16 {
        let Settings { k, m, timeout, reduce, full } = settings;
        started(|| Breaker::start(k, m, timeout, reduce, full, time), words)
    }

    /// Document 01, "The breaker": k = 3, m = 3, t = 15,000 ms, no reduction.
    fn breaker_start_preset(&self, time: u64, words: &mut [u64]) -> u16 {
        started(|| Breaker::start(3, 3, 15_000, 0, 0, time), words)
    }

    fn breaker_report(&self, words: &mut [u64], report: &Report) -> u16 {
        step(words, |breaker| breaker.report(report))
    }

    fn breaker_tick(&self, words: &mut [u64], time: u64) -> u16 {
        step(words, |breaker| breaker.tick(time))
    }

    fn breaker_heard(&self, words: &mut [u64], time: u64) -> u16 {
        step(words, |breaker| breaker.heard(time))
    }

    fn breaker_call(&self, found: &[u64], kept: &mut [u64], call: &mut [u64]) -> u8 {
        let told = Packet::from_words(found).and_then(|packet| Ok(packet.call(kept_from_words(kept)?)));
        let answer = put_words(told.as_ref().map(|(words, _)| words).map_err(|&refusal| refusal), call);
        if let (Ok((_, then)), 0) = (told, answer) {
            kept.copy_from_slice(&kept_to_words(then));
        }
        answer
    }

    fn read_attribute(&self, line: &[u8], found: &mut [u64]) -> u8 {
        put_words(sdp::read(line).map(|attribute| sdp::to_words(&attribute)), found)
    }

    fn write_attribute(&self, attribute: &[u64], out: &mut [u8]) -> i64 {
        sdp::from_words(attribute).map_or_else(minus, |attribute| length(sdp::write(&attribute, out)))
    }

    fn answer(&self, offer: &[u64], ours: &[u64], found: &mut [u64]) -> u8 {
        let told = sdp::from_words(offer).and_then(|offer| sdp::answer(&offer, &sdp::from_words(ours)?));
        match told {
            Ok(None) => LEFT_OUT,
            Ok(Some(answer)) => put_words(Ok(sdp::to_words(&answer)), found),
            Err(refusal) => refusal.number(),
        }
    }

    fn read_block(&self, block: &[u8], found: &mut [u64]) -> u8 {
        let words = trace::read(block).map(|(form, ssrc, contents)| {
            let (kind, count) = match contents {
                Contents::Label(label) => (form.kinds().0, label.len()),
                Contents::Arrivals(records) => (form.kinds().1, records.len()),
            };
            [u64::from(kind), count as u64, u64::from(ssrc)]
        });
        put_words(words, found)
    }

    fn read_own(&self, form: u8, ssrc: u32, block: &[u8]) -> u8 {
        salvage::read_own(form, ssrc, block).map_or_else(|refusal| refusal.number(), |()| 0)
    }

    fn record_at(&self, block: &[u8], index: usize, found: &mut [u64]) -> u8 {
        let words = trace::record_at(block, index).map(|record| [record.time, record.wire.into(), record.mark.into()]);
        put_words(words, found)
    }

    fn write_label(&self, form: u8, label: &[u8], ssrc: u32, out: &mut [u8]) -> i64 {
        length(put(Form::from_number(form).and_then(|form| new_label_block(form, label, ssrc)), out))
    }

    /// The number of bytes replaced takes the place of the length.
    fn space_label(&self, zeroth: &[u8], out: &mut [u8]) -> i64 {
        let spaced = spaced(zeroth);
        match (put(spaced.as_ref().map(|(block, _)| block).map_err(|&refusal| refusal), out), spaced) {
            (Written::Length(_), Ok((_, replaced))) => replaced as i64,
            (written, _) => length(written),
        }
    }

    fn write_arrivals(&self, form: u8, times: &[u64], numbers: &[u16], marks: &[u8], ssrc: u32, out: &mut [u8]) -> i64 {
        let together = times.iter().zip(numbers).zip(marks);
        let records: Vec<Record> = together.map(|((&time, &wire), &mark)| Record { time, wire, mark }).collect();
        let same_length = times.len() == numbers.len() && numbers.len() == marks.len();
        let form = require(same_length, LIMITS).and_then(|()| Form::from_number(form));
        length(put(form.and_then(|form| arrivals_block(form, &records, ssrc)), out))
    }

    fn write_records(&self, form: u8, records: &[u8], ssrc: u32, out: &mut [u8]) -> i64 {
        length(put(Form::from_number(form).and_then(|form| records_block(form, records, ssrc)), out))
    }

    fn write_head(&self, out: &mut [u8]) -> i64 {
        length(put(Ok(table::HEAD), out))
    }

    fn write_row(&self, label: &[u8], ssrc: u32, words: &[u64], jumped: u64, restarts: u64, out: &mut [u8]) -> i64 {
        let row = Source::from_words(words).and_then(|source| table::row(label, ssrc, &source, jumped, restarts));
        length(put(row, out))
    }

    /// That of the file VERSION.
    fn version(&self) -> u32 {
        let numbers: Vec<u32> = include_str!("../../VERSION").trim().split('.').map(|each| each.parse().expect("a number")).collect();
        65_536 * numbers[0] + 256 * numbers[1] + numbers[2]
    }

    fn refusal_text(&self, number: u8, out: &mut [u8]) -> i64 {
        length(put(refusal::text(number), out))
    }

    fn write_refused(&self, number: u8, block: u64, out: &mut [u8]) -> i64 {
        length(put(Ok(trace::refused_line(number, block)), out))
    }

    fn run_start(&self, zeroth: &[u8], words: &mut [u64]) -> u8 {
        let mut run = Run::default();
        put_started(|| run.block(zeroth).map(|_| run.to_words()), words)
    }

    fn run_block(&self, words: &mut [u64], zeroth: &[u8], block: &[u8], out: &mut [u8]) -> i64 {
        let taken = Run::from_words(words, zeroth).and_then(|mut run| run.block(block).map(|_| run));
        let written = put(taken.as_ref().map(Run::row).map_err(|&refusal| refusal), out);
        if let (Ok(run), Written::Length(_)) = (taken, written) {
            words.copy_from_slice(&run.to_words());
        }
        length(written)
    }

    fn forms_start(&self, zeroth: &[u8], words: &mut [u64], out: &mut [u8]) -> i64 {
        let begun = require(words.len() == forms::WORDS, MALFORMED).and_then(|()| Conversion::start(zeroth));
        let written = put(begun.as_ref().map(|(_, label)| label).map_err(|&refusal| refusal), out);
        if let (Ok((conversion, _)), Written::Length(_)) = (&begun, written) {
            words.copy_from_slice(&conversion.to_words());
        }
        length(written)
    }

    fn forms_block(&self, words: &mut [u64], part: &mut [u8], block: &[u8], out: &mut [u8]) -> i64 {
        let taken = Conversion::from_words(words, part).and_then(|mut next| next.take(block).map(|full| (next, full)));
        let written = put(taken.as_ref().map(|(_, full)| full).map_err(|&refusal| refusal), out);
        if let (Ok((next, _)), Written::Length(_)) = (&taken, written) {
            words.copy_from_slice(&next.to_words());
            next.keep(part);
        }
        length(written)
    }

    fn forms_close(&self, words: &[u64], part: &[u8], out: &mut [u8]) -> i64 {
        length(put(Conversion::from_words(words, part).map(|conversion| conversion.last()), out))
    }

    fn streams_start(&self, zeroth: &[u8], words: &mut [u64]) -> u8 {
        match require(words.len() == streams::RUN_WORDS, MALFORMED).and_then(|()| streams::Run::start(zeroth)) {
            Ok(run) => {
                words.copy_from_slice(&run.to_words());
                0
            }
            Err(refusal) => refusal.number(),
        }
    }

    fn streams_block(&self, words: &mut [u64], lines: &mut [u64], block: &[u8]) -> u8 {
        match streams::Run::from_words(words, lines).and_then(|mut next| next.take(block).map(|()| next)) {
            Ok(next) => {
                words.copy_from_slice(&next.to_words());
                next.keep(lines);
                0
            }
            Err(refusal) => refusal.number(),
        }
    }

    fn streams_row(&self, words: &[u64], i: usize, lines: &[u64], zeroth: &[u8], out: &mut [u8]) -> i64 {
        length(put(streams::Run::from_words(words, lines).and_then(|run| run.row(i, zeroth)), out))
    }

    /// The length of the rows, which stands beside a block's refusal as a size does beside 12.
    fn feed(&self, words: &mut [u64], kept: &mut [u8], stretch: &[u8], out: &mut [u8]) -> i64 {
        let taken = Feed::from_words(words, kept).and_then(|mut feed| feed.take(stretch).map(|rows| (feed, rows)));
        let written = put(taken.as_ref().map(|(_, rows)| rows).map_err(|&refusal| refusal), out);
        let (Ok((feed, rows)), Written::Length(_)) = (taken, written) else { return length(written) };
        words.copy_from_slice(&feed.to_words());
        feed.keep(kept);
        feed.refusal.map_or(length(written), |refusal| minus(refusal) - 256 * rows.len() as i64)
    }

    fn feed_close(&self, words: &mut [u64], kept: &[u8]) -> u8 {
        let closed = Feed::from_words(words, kept).and_then(|mut feed| {
            let closed = feed.close();
            words.copy_from_slice(&feed.to_words());
            closed
        });
        closed.map_or_else(Refusal::number, |()| 0)
    }
}

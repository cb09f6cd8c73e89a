//! The library through the declarations of the crate in rust/flasknib, which are made from include/flasknib.h: those that people use are those that are
//! compared.
use crate::calls::{Calls, Settings};
use flasknib::header;
use model::between::Carried;
use model::breaker::{Loss, Report};

pub struct Library;

impl Calls for Library {
    fn arrive(&self, source: &mut [u64], wire: u16, mark: u8) -> u8 {
        header::arrive(source, wire, mark)
    }

    fn count_block(&self, source: &mut [u64], records: &[u8], width: usize) -> i64 {
        header::count_block(source, records, width)
    }

    fn lost(&self, source: &[u64], found: &mut [u64]) -> u8 {
        header::lost(source, found)
    }

    fn table_arrive(&self, table: &mut [u64], ssrc: u32, wire: u16, mark: u8) -> u8 {
        header::sources_arrive(table, ssrc, wire, mark)
    }

    fn table_count_block(&self, table: &mut [u64], ssrc: u32, records: &[u8], width: usize) -> i64 {
        header::sources_count_block(table, ssrc, records, width)
    }

    fn table_write_compound(&self, table: &[u64], sender: u32, out: &mut [u8]) -> i64 {
        header::sources_write_compound(table, sender, out)
    }

    fn table_place(&self, table: &[u64], place: usize, found: &mut [u64]) -> u8 {
        header::sources_place(table, place, found)
    }

    fn table_held(&self, table: &[u64]) -> i64 {
        header::sources_held(table)
    }

    fn write_feedback(&self, source: &[u64], sender: u32, media: u32, out: &mut [u8]) -> i64 {
        header::write_feedback(source, sender, media, out)
    }

    fn write_summary(&self, source: &[u64], media: u32, out: &mut [u8]) -> i64 {
        header::write_summary(source, media, out)
    }

    fn read_compound(&self, bytes: &[u8], media: u32, profile: u8, found: &mut [u64]) -> u8 {
        header::read_compound(bytes, media, profile, found)
    }

    fn ecn_between(&self, later: &Carried, earlier: &Carried, counts: &mut [u64]) -> u8 {
        let &Carried { highest, ce, lost } = later;
        header::ecn_between(highest, ce, lost, earlier.highest, earlier.ce, earlier.lost, counts)
    }

    fn since16(&self, later: u16, earlier: u16) -> u16 {
        header::since16(later, earlier)
    }

    fn since32(&self, later: u32, earlier: u32) -> u32 {
        header::since32(later, earlier)
    }

    fn lost_since(&self, later: u16, earlier: u16) -> i16 {
        header::lost_since(later, earlier)
    }

    fn breaker_start_preset(&self, time: u64, breaker: &mut [u64]) -> u16 {
        header::breaker_start_preset(time, breaker)
    }

    fn breaker_start(&self, settings: Settings, time: u64, breaker: &mut [u64]) -> u16 {
        let Settings { k, m, timeout, reduce, full } = settings;
        header::breaker_start(k, m, timeout, reduce, full, time, breaker)
    }

    fn breaker_report(&self, breaker: &mut [u64], report: &Report) -> u16 {
        let &Report { time, number, loss, rtt, size, rate } = report;
        match loss {
            Loss::Fraction(fraction) => header::breaker_report(breaker, time, number, fraction, rtt, size, rate),
            Loss::Counts { lost, marked, expected } => header::breaker_report_ecn(breaker, time, number, lost, marked, expected, rtt, size, rate),
        }
    }

    fn breaker_tick(&self, breaker: &mut [u64], time: u64) -> u16 {
        header::breaker_tick(breaker, time)
    }

    fn breaker_heard(&self, breaker: &mut [u64], time: u64) -> u16 {
        header::breaker_heard(breaker, time)
    }

    fn breaker_call(&self, found: &[u64], kept: &mut [u64], call: &mut [u64]) -> u8 {
        header::breaker_call(found, kept, call)
    }

    fn read_attribute(&self, line: &[u8], found: &mut [u64]) -> u8 {
        header::read_attribute(line, found)
    }

    fn write_attribute(&self, attribute: &[u64], out: &mut [u8]) -> i64 {
        header::write_attribute(attribute, out)
    }

    fn answer(&self, offer: &[u64], ours: &[u64], found: &mut [u64]) -> u8 {
        header::answer(offer, ours, found)
    }

    fn read_block(&self, block: &[u8], found: &mut [u64]) -> u8 {
        header::read_block(block, found)
    }

    fn read_own(&self, form: u8, ssrc: u32, block: &[u8]) -> u8 {
        header::read_own(form, ssrc, block)
    }

    fn record_at(&self, block: &[u8], index: usize, found: &mut [u64]) -> u8 {
        header::record_at(block, index, found)
    }

    fn write_label(&self, form: u8, label: &[u8], ssrc: u32, out: &mut [u8]) -> i64 {
        header::write_label(form, label, ssrc, out)
    }

    fn space_label(&self, zeroth: &[u8], out: &mut [u8]) -> i64 {
        header::space_label(zeroth, out)
    }

    fn write_arrivals(&self, form: u8, times: &[u64], numbers: &[u16], marks: &[u8], ssrc: u32, out: &mut [u8]) -> i64 {
        header::write_arrivals(form, times, numbers, marks, ssrc, out)
    }

    fn write_records(&self, form: u8, records: &[u8], ssrc: u32, out: &mut [u8]) -> i64 {
        header::write_records(form, records, ssrc, out)
    }

    fn write_head(&self, out: &mut [u8]) -> i64 {
        header::write_head(out)
    }

    fn write_row(&self, label: &[u8], ssrc: u32, source: &[u64], jumped: u64, restarts: u64, out: &mut [u8]) -> i64 {
        header::write_row(label, ssrc, source, jumped, restarts, out)
    }

    fn version(&self) -> u32 {
        header::version()
    }

    fn refusal_text(&self, number: u8, out: &mut [u8]) -> i64 {
        header::refusal_text(number, out)
    }

    fn write_refused(&self, number: u8, block: u64, out: &mut [u8]) -> i64 {
        header::write_refused(number, block, out)
    }

    fn run_start(&self, zeroth: &[u8], run: &mut [u64]) -> u8 {
        header::run_start(zeroth, run)
    }

    fn run_block(&self, run: &mut [u64], zeroth: &[u8], block: &[u8], out: &mut [u8]) -> i64 {
        header::run_block(run, zeroth, block, out)
    }

    fn forms_start(&self, zeroth: &[u8], forms: &mut [u64], out: &mut [u8]) -> i64 {
        header::forms_start(zeroth, forms, out)
    }

    fn forms_block(&self, forms: &mut [u64], part: &mut [u8], block: &[u8], out: &mut [u8]) -> i64 {
        header::forms_block(forms, part, block, out)
    }

    fn forms_close(&self, forms: &[u64], part: &[u8], out: &mut [u8]) -> i64 {
        header::forms_close(forms, part, out)
    }

    fn streams_start(&self, zeroth: &[u8], run: &mut [u64]) -> u8 {
        header::streams_start(zeroth, run)
    }

    fn streams_block(&self, run: &mut [u64], lines: &mut [u64], block: &[u8]) -> u8 {
        header::streams_block(run, lines, block)
    }

    fn streams_row(&self, run: &[u64], i: usize, lines: &[u64], zeroth: &[u8], out: &mut [u8]) -> i64 {
        header::streams_row(run, i, lines, zeroth, out)
    }

    fn feed(&self, upload: &mut [u64], kept: &mut [u8], stretch: &[u8], out: &mut [u8]) -> i64 {
        header::feed(upload, kept, stretch, out)
    }

    fn feed_close(&self, upload: &mut [u64], kept: &[u8]) -> u8 {
        header::feed_close(upload, kept)
    }
}

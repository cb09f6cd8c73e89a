//! The calls of include/flasknib.h over slices, and the answers that each can give.

pub trait Calls {
    fn arrive(&self, source: &mut [u64], wire: u16, mark: u8) -> u8;
    fn count_block(&self, source: &mut [u64], records: &[u8], width: usize) -> i64;
    fn lost(&self, source: &[u64], found: &mut [u64]) -> u8;
    fn table_arrive(&self, table: &mut [u64], ssrc: u32, wire: u16, mark: u8) -> u8;
    fn table_count_block(&self, table: &mut [u64], ssrc: u32, records: &[u8], width: usize) -> i64;
    fn table_write_compound(&self, table: &[u64], sender: u32, out: &mut [u8]) -> i64;
    fn table_place(&self, table: &[u64], place: usize, found: &mut [u64]) -> u8;
    fn table_held(&self, table: &[u64]) -> i64;
    fn write_feedback(&self, source: &[u64], sender: u32, media: u32, out: &mut [u8]) -> i64;
    fn write_summary(&self, source: &[u64], media: u32, out: &mut [u8]) -> i64;
    fn read_compound(&self, bytes: &[u8], media: u32, profile: u8, found: &mut [u64]) -> u8;
    fn ecn_between(&self, later: &model::between::Carried, earlier: &model::between::Carried, counts: &mut [u64]) -> u8;
    fn since16(&self, later: u16, earlier: u16) -> u16;
    fn since32(&self, later: u32, earlier: u32) -> u32;
    fn lost_since(&self, later: u16, earlier: u16) -> i16;
    fn breaker_start(&self, settings: Settings, time: u64, breaker: &mut [u64]) -> u16;
    fn breaker_start_preset(&self, time: u64, breaker: &mut [u64]) -> u16;
    /// flasknib_breaker_report, or flasknib_breaker_report_ecn where the report comes with ECN counts.
    fn breaker_report(&self, breaker: &mut [u64], report: &model::breaker::Report) -> u16;
    fn breaker_tick(&self, breaker: &mut [u64], time: u64) -> u16;
    fn breaker_heard(&self, breaker: &mut [u64], time: u64) -> u16;
    fn breaker_call(&self, found: &[u64], kept: &mut [u64], call: &mut [u64]) -> u8;
    fn read_attribute(&self, line: &[u8], found: &mut [u64]) -> u8;
    fn write_attribute(&self, attribute: &[u64], out: &mut [u8]) -> i64;
    fn answer(&self, offer: &[u64], ours: &[u64], found: &mut [u64]) -> u8;
    fn read_block(&self, block: &[u8], found: &mut [u64]) -> u8;
    fn read_own(&self, form: u8, ssrc: u32, block: &[u8]) -> u8;
    fn record_at(&self, block: &[u8], index: usize, found: &mut [u64]) -> u8;
    fn write_label(&self, form: u8, label: &[u8], ssrc: u32, out: &mut [u8]) -> i64;
    fn space_label(&self, zeroth: &[u8], out: &mut [u8]) -> i64;
    fn write_arrivals(&self, form: u8, times: &[u64], numbers: &[u16], marks: &[u8], ssrc: u32, out: &mut [u8]) -> i64;
    fn write_records(&self, form: u8, records: &[u8], ssrc: u32, out: &mut [u8]) -> i64;
    fn write_head(&self, out: &mut [u8]) -> i64;
    fn write_row(&self, label: &[u8], ssrc: u32, source: &[u64], jumped: u64, restarts: u64, out: &mut [u8]) -> i64;
    fn write_refused(&self, number: u8, block: u64, out: &mut [u8]) -> i64;
    fn version(&self) -> u32;
    fn refusal_text(&self, number: u8, out: &mut [u8]) -> i64;
    fn run_start(&self, zeroth: &[u8], run: &mut [u64]) -> u8;
    fn run_block(&self, run: &mut [u64], zeroth: &[u8], block: &[u8], out: &mut [u8]) -> i64;
    fn forms_start(&self, zeroth: &[u8], forms: &mut [u64], out: &mut [u8]) -> i64;
    fn forms_block(&self, forms: &mut [u64], part: &mut [u8], block: &[u8], out: &mut [u8]) -> i64;
    fn forms_close(&self, forms: &[u64], part: &[u8], out: &mut [u8]) -> i64;
    fn streams_start(&self, zeroth: &[u8], run: &mut [u64]) -> u8;
    fn streams_block(&self, run: &mut [u64], lines: &mut [u64], block: &[u8]) -> u8;
    fn streams_row(&self, run: &[u64], i: usize, lines: &[u64], zeroth: &[u8], out: &mut [u8]) -> i64;
    fn feed(&self, upload: &mut [u64], kept: &mut [u8], stretch: &[u8], out: &mut [u8]) -> i64;
    fn feed_close(&self, upload: &mut [u64], kept: &[u8]) -> u8;
}

#[derive(Clone, Copy, Debug)]
pub struct Settings {
    pub k: u64,
    pub m: u64,
    pub timeout: u64,
    pub reduce: u8,
    pub full: u8,
}

/// What flasknib_arrive answers for a restart.
pub const RESTARTED: u8 = 128;
/// What flasknib_answer answers where the attribute is left out.
pub const LEFT_OUT: u8 = 129;
/// flasknib_count_block answers this times the restarts, plus the jumps.
pub const RESTART: i64 = 256;

pub const GO: u16 = 0;
pub const REDUCE: u16 = 1;
pub const STOP: u16 = 0x100;
pub const REFUSED: u16 = 0x200;

/// Every function with every answer it can give; a length counts as 0, a writer's 12 with any size as -12, a fed block's refusal with any length as minus its
/// number, of a difference its sign, and of a block's jumps and restarts and of a label's retired bytes whether there are any.
pub const FUNCTIONS: [(&str, &[i64]); 47] = [
    ("flasknib_arrive", &[0, 7, 8, 9, 10, 128]),
    ("flasknib_count_block", &[0, 1, 256, 257, -9, -10]),
    ("flasknib_lost", &[0, 9, 12]),
    ("flasknib_sources_arrive", &[0, 7, 8, 9, 10, 15, 16, 128]),
    ("flasknib_sources_count_block", &[0, 1, 256, 257, -9, -10, -15, -16]),
    ("flasknib_sources_write_compound", &[0, -9, -12, -16]),
    ("flasknib_sources_place", &[0, 9, 10, 12, 16]),
    ("flasknib_sources_held", &[0, -9, -16]),
    ("flasknib_write_feedback", &[0, -9, -12]),
    ("flasknib_write_summary", &[0, -9, -12]),
    ("flasknib_read_compound", &[0, 1, 2, 3, 4, 5, 6, 10, 12]),
    ("flasknib_ecn_between", &[0, 10, 12]),
    ("flasknib_since16", &[0, 1]),
    ("flasknib_since32", &[0, 1]),
    ("flasknib_lost_since", &[-1, 0, 1]),
    ("flasknib_breaker_start_preset", &[0, 0x209, 0x20A]),
    ("flasknib_breaker_start", &[0, 0x209, 0x20A]),
    ("flasknib_breaker_report", &[0, 1, 0x101, 0x102, 0x103, 0x209, 0x20A, 0x20B]),
    ("flasknib_breaker_report_ecn", &[0, 1, 0x101, 0x102, 0x103, 0x209, 0x20A, 0x20B]),
    ("flasknib_breaker_tick", &[0, 0x101, 0x102, 0x103, 0x209, 0x20A, 0x20B]),
    ("flasknib_breaker_heard", &[0, 0x101, 0x102, 0x103, 0x209, 0x20A, 0x20B]),
    ("flasknib_breaker_call", &[0, 9, 12]),
    ("flasknib_read_attribute", &[0, 10, 12, 18]),
    ("flasknib_write_attribute", &[0, -9, -10, -12]),
    ("flasknib_answer", &[0, 9, 10, 12, 129]),
    ("flasknib_read_block", &[0, 1, 12, 13, 14]),
    ("flasknib_read_own", &[0, 1, 10, 13, 14]),
    ("flasknib_record_at", &[0, 1, 10, 12, 14]),
    ("flasknib_write_label", &[0, -10, -12, -19]),
    ("flasknib_space_label", &[0, 1, -1, -12, -13, -14]),
    ("flasknib_write_arrivals", &[0, -10, -12]),
    ("flasknib_write_records", &[0, -10, -12]),
    ("flasknib_write_head", &[0, -12]),
    ("flasknib_write_row", &[0, -9, -10, -12]),
    ("flasknib_write_refused", &[0, -12]),
    ("flasknib_version", &[512]),
    ("flasknib_refusal_text", &[0, -10, -12]),
    ("flasknib_run_start", &[0, 1, 9, 13, 14]),
    ("flasknib_run_block", &[0, -1, -9, -12, -13, -14]),
    ("flasknib_forms_start", &[0, -1, -9, -12, -13, -14]),
    ("flasknib_forms_block", &[0, -1, -9, -12, -13, -14, -17]),
    ("flasknib_forms_close", &[0, -9, -12]),
    ("flasknib_streams_start", &[0, 1, 9, 13, 14]),
    ("flasknib_streams_block", &[0, 1, 9, 13, 14, 15, 16]),
    ("flasknib_streams_row", &[0, -9, -10, -12, -16]),
    ("flasknib_feed", &[0, -1, -9, -10, -12, -13, -14]),
    ("flasknib_feed_close", &[0, 1, 9, 13, 14]),
];

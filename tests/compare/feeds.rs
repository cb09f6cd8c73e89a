//! Document 02, L7: flasknib_feed and flasknib_feed_close over every cut of short traces and random cuts of long ones, whose answers are the table; and single
//! calls on states of every kind.
use crate::compare::Compare;
use crate::lent::Lent;
use draw::{blocks, sources, traces, Draw};
use model::converter::table;
use model::feeds::{Feed, LENT, WORDS};
use model::source::MOST_ARRIVALS;
use model::table::HEAD;
use model::trace::{arrivals_block, refused_line, zeroth, Label, BLOCK};

/// What a caller keeps between two calls.
#[derive(Clone, Debug, PartialEq)]
pub struct Upload {
    pub words: Vec<u64>,
    pub kept: Vec<u8>,
}

/// The refusal in an answer of flasknib_feed, 0 for none, and the length or the size.
pub fn parts(answer: i64) -> (u8, usize) {
    if answer < 0 {
        ((-answer % 256) as u8, (-answer / 256) as usize)
    } else {
        (0, answer as usize)
    }
}

impl Upload {
    pub fn fresh() -> Upload {
        Upload { words: vec![0; WORDS], kept: vec![0; LENT] }
    }

    pub fn of(feed: &Feed) -> Upload {
        let mut upload = Upload::fresh();
        upload.words.copy_from_slice(&feed.to_words());
        feed.keep(&mut upload.kept);
        upload
    }

    /// Gives the answer and the bytes of `out` after the call.
    pub fn feed(&mut self, compare: &Compare, stretch: &[u8], out: &[u8]) -> (i64, Vec<u8>) {
        let mut lent = (Lent::new(&self.words), Lent::new(&self.kept), Lent::new(stretch), Lent::new(out));
        let answer = compare.call("flasknib_feed", &mut lent, |calls, (words, kept, stretch, out)| {
            calls.feed(words.part_mut(), kept.part_mut(), stretch.part(), out.part_mut())
        });
        (self.words, self.kept) = (lent.0.part().to_vec(), lent.1.part().to_vec());
        (answer, lent.3.part().to_vec())
    }

    pub fn close(&mut self, compare: &Compare) -> u8 {
        let mut lent = (Lent::new(&self.words), Lent::new(&self.kept));
        let answer =
            compare.call("flasknib_feed_close", &mut lent, |calls, (words, kept)| i64::from(calls.feed_close(words.part_mut(), kept.part())));
        (self.words, self.kept) = (lent.0.part().to_vec(), lent.1.part().to_vec());
        answer as u8
    }

    /// A stretch with no room, with one byte less than its rows need, and with as much as they need. Gives the refusal and the rows.
    fn feed_exactly(&mut self, compare: &Compare, stretch: &[u8]) -> (u8, Vec<u8>) {
        let before = self.clone();
        let (answer, _) = self.feed(compare, stretch, &[]);
        let (refusal, size) = parts(answer);
        if refusal != 12 {
            compare.hold(size == 0, "rows were written in no room");
            return (refusal, Vec::new());
        }
        let (less, _) = self.feed(compare, stretch, &vec![0xA5; size - 1]);
        compare.hold(less == answer && *self == before, "one byte less than the rows need");
        let (answer, out) = self.feed(compare, stretch, &vec![0xA5; size]);
        let (refusal, length) = parts(answer);
        compare.hold(refusal != 12 && length == size, "as many bytes as the rows need");
        (refusal, out)
    }
}

/// A trace that is fed, and what its caller has printed.
struct Line<'a> {
    compare: &'a Compare,
    upload: Upload,
    told: Vec<u8>,
    refusal: u8,
}

impl<'a> Line<'a> {
    fn new(compare: &'a Compare) -> Line<'a> {
        Line { compare, upload: Upload::fresh(), told: HEAD.to_vec(), refusal: 0 }
    }

    /// After a refusal the same answer, and nothing changes.
    fn feed(&mut self, stretch: &[u8]) {
        let before = self.upload.clone();
        let (refusal, rows) = self.upload.feed_exactly(self.compare, stretch);
        if self.refusal != 0 {
            self.compare.hold(refusal == self.refusal && rows.is_empty() && self.upload == before, "a refusal is not repeated");
        }
        self.refusal = refusal;
        self.told.extend(rows);
    }

    /// The trace ends here, or the line breaks off: what was printed is the table of these bytes. Every later call repeats a refusal.
    fn close(mut self, trace: &[u8]) -> Upload {
        let before = self.upload.clone();
        let refusal = self.upload.close(self.compare);
        self.compare.hold(refusal != 0 || self.upload == before, "a close that refuses nothing changes something");
        if refusal != 0 {
            self.told.extend(refused_line(refusal, self.upload.words[15]));
            let after = self.upload.clone();
            let again = [self.upload.close(self.compare), self.upload.feed_exactly(self.compare, &trace[..trace.len().min(700)]).0];
            self.compare.hold(again == [refusal; 2] && self.upload == after, "a refusal is not repeated");
        }
        self.compare.hold(self.told == table(trace), &format!("a trace of {} bytes that was fed has another table", trace.len()));
        self.upload
    }
}

/// Gives the number of cuts.
pub fn calls(compare: &Compare, draw: &Draw) -> u64 {
    let mut cuts = 0;
    for trace in short(draw) {
        cuts += every_cut(compare, &trace);
    }
    for round in 0..600 {
        let trace = traces::sound(draw, if round % 20 == 0 { 120 } else { 6 });
        let trace = if draw.one_in(2) { traces::damaged(draw, trace) } else { trace };
        cuts += random_cuts(compare, draw, &trace);
    }
    for _ in 0..40_000 {
        single(compare, draw);
    }
    cuts
}

/// Sound traces of two arrivals blocks, damaged ones, and an empty one.
fn short(draw: &Draw) -> Vec<Vec<u8>> {
    let mut traces = vec![Vec::new()];
    while traces.len() < 16 {
        let trace = traces::sound(draw, 2);
        if trace.len() == 3 * BLOCK {
            traces.push(if traces.len() < 5 { trace } else { traces::damaged(draw, trace) });
        }
    }
    traces
}

/// The trace in two stretches, cut at each place, with a line that breaks off there; and byte by byte.
fn every_cut(compare: &Compare, trace: &[u8]) -> u64 {
    let mut bytes = Line::new(compare);
    let mut ends = None;
    for cut in 0..=trace.len() {
        let (front, back) = trace.split_at(cut);
        let mut broken = Line::new(compare);
        broken.feed(front);
        compare.hold(broken.upload == bytes.upload, &format!("the first {cut} bytes in one stretch and byte by byte"));
        broken.close(front);
        let mut line = Line::new(compare);
        [front, back].into_iter().for_each(|stretch| line.feed(stretch));
        let end = (line.upload.clone(), line.close(trace));
        compare.hold(*ends.get_or_insert_with(|| end.clone()) == end, &format!("cut at {cut} the trace ends in another state"));
        back.first().into_iter().for_each(|&byte| bytes.feed(&[byte]));
    }
    bytes.close(trace);
    trace.len() as u64 + 1
}

/// The length of the next stretch.
fn stretch(draw: &Draw, most: usize) -> usize {
    let length = match draw.below(6) {
        0 => 0,
        1 => 1,
        2 => draw.of(&[510, 511, 512, 513, 1_023, 1_024, 1_025]),
        3 => 1_448,
        4 => draw.index(8 * BLOCK),
        _ => draw.index(BLOCK),
    };
    length.min(most)
}

/// Three ways to cut the trace end in the same state; a close that refuses nothing may stand in between.
fn random_cuts(compare: &Compare, draw: &Draw, trace: &[u8]) -> u64 {
    let ends: Vec<_> = (0..3)
        .map(|_| {
            let (mut line, mut rest) = (Line::new(compare), trace);
            while !rest.is_empty() {
                let (front, behind) = rest.split_at(stretch(draw, rest.len()));
                line.feed(front);
                rest = behind;
                if line.upload.words[15] > 0 && line.upload.words[16] == 0 && draw.one_in(2) {
                    let before = line.upload.clone();
                    let answer = line.upload.close(compare);
                    compare.hold(answer == line.refusal && line.upload == before, "a close between two feeds");
                }
            }
            (line.upload.clone(), line.close(trace))
        })
        .collect();
    compare.hold(ends.iter().all(|end| *end == ends[0]), "two cuts end in other states");
    3
}

/// A call of each function on a state that a trace has led to, or with any record and counts; one in two times something is wrong with it.
fn single(compare: &Compare, draw: &Draw) {
    let trace = traces::sound(draw, 3);
    let trace = if draw.one_in(4) { traces::damaged(draw, trace) } else { trace };
    let (front, back) = trace.split_at(draw.index(trace.len() + 1));
    let mut feed = Feed::default();
    feed.take(front).unwrap();
    if draw.one_in(6) {
        let _ = feed.close();
    }
    let mut upload = Upload::of(&feed);
    if feed.blocks > 0 && draw.one_in(2) {
        upload.words.splice(3..13, sources::sound(draw));
        upload.words[13..15].fill_with(|| draw.astray(0, MOST_ARRIVALS));
        upload.words[15] = draw.edge(1, (1 << 39) + 1) - u64::from(draw.one_in(2));
    }
    if draw.one_in(2) {
        damage(draw, &mut upload);
    }
    let mut stretch = back.to_vec();
    if draw.one_in(4) {
        stretch.extend(next(draw, &feed));
    }
    let size = Feed::from_words(&upload.words, &upload.kept).and_then(|mut feed| feed.take(&stretch)).map_or(80, |rows| rows.len());
    upload.clone().feed(compare, &stretch, &vec![draw.u64() as u8; draw.room(size)]);
    upload.close(compare);
}

/// Any blocks after those of a trace, sound ones of it among them.
fn next(draw: &Draw, feed: &Feed) -> Vec<u8> {
    match zeroth(&feed.zeroth) {
        Ok(Label { form, ssrc, .. }) if !draw.one_in(4) => arrivals_block(form, &blocks::records(draw, form, form.times()), ssrc).unwrap(),
        _ => blocks::any(draw),
    }
}

/// Something wrong, most often with one place alone.
fn damage(draw: &Draw, upload: &mut Upload) {
    let Upload { words, kept } = upload;
    let held = words[16] as usize;
    match draw.below(15) {
        0 => words[draw.index(WORDS)] = draw.any_size(),
        1 => words[draw.index(3)] ^= 1 << draw.below(64),
        2 => drop(words.splice(3..13, sources::any(draw))),
        3 => words[13 + draw.index(2)] = draw.of(&[MOST_ARRIVALS, MOST_ARRIVALS + 1, u64::MAX]),
        4 => words[15] = draw.of(&[0, 1, 1 << 39, (1 << 39) + 1, 1 << 55, u64::MAX]),
        5 => words[16] = draw.of(&[0, 510, 511, 512, 513, 1 << 32, u64::MAX]),
        6 => words[17] = draw.of(&[0, 1, 2, 9, 10, 12, 13, 14, 15, 17, 256, 257, 269, 1 << 32, u64::MAX]),
        7 => words.resize(draw.index(21), 0),
        8 => kept.resize(draw.of(&[0, 511, 512, 1_023]), 0),
        9 | 10 => blocks::flip(draw, &mut kept[BLOCK + held..]),
        11 => blocks::flip(draw, &mut kept[..BLOCK]),
        12 => blocks::damage_contents(draw, &mut kept[..BLOCK]),
        13 => kept[..BLOCK].copy_from_slice(&blocks::sound(draw)),
        _ => kept.extend(draw.bytes(1 + draw.index(3))),
    }
}

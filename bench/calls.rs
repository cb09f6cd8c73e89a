//! Times the library's calls against plain Rust that gives the same answers. Argument: the machine's word.
mod arrivals;
mod blocks;
mod breaker;
mod compound;
mod feeds;
mod form;
mod library;
mod medians;
mod random;
mod records;
mod rings;
mod row;
mod words;

use arrivals::{Arrivals, LINKS, WORST};
use breaker::{Breaker, Report};
use rings::{Counter, Hundred, PowerOfTwo, Ring};
use std::hint::black_box;

/// The processor time of this process: other processes do not count in it.
const PROCESSOR: medians::Clock = medians::Clock(2);
const BLOCKS: usize = 8_000;
const CALLS: usize = 200_000;
const MEDIA: u32 = 0x1234_5678;
const LABEL: &[u8] = b"probe 2, left";

type Run<'a> = Box<dyn FnMut() + 'a>;

/// One line of the table for each of the others; `units` calls or records are one run.
fn lines(call: &str, input: &str, others: &[&str], units: usize, mut runs: Vec<Run>) {
    let times = medians::medians(PROCESSOR, medians::setting("ROUNDS", 11), || (), &mut runs);
    let ns = |i: usize| times[i] * 1e9 / units as f64;
    for (i, other) in others.iter().enumerate() {
        let ratio = ns(i + 1) / ns(0);
        medians::figure("calls", call, input, ns(0), other, ns(i + 1));
        println!("| {call} | {input} | {:.1} | {other} | {:.1} | {ratio:.2} |", ns(0), ns(i + 1));
    }
}

/// A record's words, and 256 times the restarts plus the jumps.
type Counts = ([u64; 10], i64);

/// What an answer to an arrival adds to those of a block.
fn skipped(answer: u8) -> i64 {
    i64::from(answer == 7) + 256 * i64::from(answer == 128)
}

fn arrive_ours(list: &[(u16, u8)]) -> Counts {
    let (mut source, mut sum) = (library::Source::default(), 0);
    for &arrival in list {
        let (wire, mark) = black_box(arrival);
        sum += skipped(library::arrive(&mut source, wire, mark));
    }
    (*black_box(&source), sum)
}

fn arrive_other<R: Ring>(list: &[(u16, u8)]) -> Counts {
    let (mut counter, mut sum) = (Counter::<R>::default(), 0);
    for &arrival in list {
        let (wire, mark) = black_box(arrival);
        sum += skipped(counter.arrive(wire, mark));
    }
    (black_box(&counter).words(), sum)
}

fn arrive_checked(list: &[(u16, u8)]) -> Counts {
    let (mut source, mut sum) = (library::Source::default(), 0);
    for &arrival in list {
        let (wire, mark) = black_box(arrival);
        sum += skipped(words::arrive(&mut source, wire, mark));
    }
    (*black_box(&source), sum)
}

/// The library and the Rust with its checks give the same answers and words for a record with each word changed in many ways, and for other numbers of words.
fn same_checks(record: &library::Source) {
    let both = |words: &[u64], wire: u16, mark: u8| {
        let (mut one, mut other) = (words.to_vec(), words.to_vec());
        let answers = (library::arrive(&mut one, wire, mark), words::arrive(&mut other, wire, mark));
        assert!(answers.0 == answers.1 && one == other, "the checks differ on {words:?}: {answers:?}");
    };
    for (i, &word) in record.iter().enumerate() {
        let near = [0, 1, 2_999, 65_535, 65_536, 1 << 36, 1 << 48, u64::MAX >> 1, u64::MAX];
        let ways = near.iter().flat_map(|&n| [n.wrapping_sub(1), n, n.wrapping_add(1), word.wrapping_sub(n), word.wrapping_add(n)]);
        for value in ways.chain((0..64).map(|bit| word ^ 1 << bit)) {
            let mut words = *record;
            words[i] = value;
            for (wire, mark) in [(words[1] as u16, 0), (words[1].wrapping_add(1) as u16, 3), (words[1].wrapping_add(9_000) as u16, 1), (words[9] as u16, 4)] {
                both(&words, wire, mark);
            }
        }
    }
    (0..12).for_each(|size| both(&[0; 12][..size], 1, 1));
}

fn blocks_ours(list: &[Vec<u8>]) -> Counts {
    let (mut source, mut sum) = (library::Source::default(), 0);
    for records in list {
        sum += library::count_block(&mut source, black_box(records));
    }
    (*black_box(&source), sum)
}

fn blocks_other<R: Ring>(list: &[Vec<u8>]) -> Counts {
    let (mut counter, mut sum) = (Counter::<R>::default(), 0);
    for records in list {
        sum += counter.count_block(black_box(records));
    }
    (black_box(&counter).words(), sum)
}

/// A run that keeps its answer from the optimiser.
fn run<'a, T>(give: impl Fn() -> T + 'a) -> Run<'a> {
    Box::new(move || {
        black_box(give());
    })
}

fn counting() {
    let rings = ["ring of 100 flags", "ring of 128 flags"];
    for (link, name) in LINKS.into_iter().chain(WORST) {
        let units = BLOCKS * form::ONE.most;
        let list: Vec<_> = Arrivals::new(link, 1).take(units).collect();
        let mut again = list.iter().copied();
        let whole: Vec<_> = (0..BLOCKS).map(|_| records::records(form::ONE, 0, &mut again)).collect();
        let answer = arrive_ours(&list);
        same_checks(&answer.0);
        let others = [arrive_other::<Hundred>(&list), arrive_other::<PowerOfTwo>(&list), arrive_checked(&list)];
        let in_blocks = [blocks_ours(&whole), blocks_other::<Hundred>(&whole), blocks_other::<PowerOfTwo>(&whole)];
        assert!(others.iter().chain(&in_blocks).all(|other| *other == answer), "the counts differ: {name}");
        let runs = vec![
            run(|| arrive_ours(&list)),
            run(|| arrive_other::<Hundred>(&list)),
            run(|| arrive_other::<PowerOfTwo>(&list)),
            run(|| arrive_checked(&list)),
        ];
        lines("arrive, a packet", name, &[rings[0], rings[1], "the same checks on the same words"], units, runs);
        let runs = vec![
            run(|| blocks_ours(&whole)),
            run(|| blocks_other::<Hundred>(&whole)),
            run(|| blocks_other::<PowerOfTwo>(&whole)),
        ];
        lines("count_block, a record", name, &rings, units, runs);
    }
}

/// The sources of a table, each with the same arrivals in turn. A place has 11 words.
fn table_ours(list: &[(u16, u8)], sources: usize) -> Vec<u64> {
    let mut table = vec![0; 11 * sources];
    for (i, &arrival) in list.iter().enumerate() {
        let (wire, mark) = black_box(arrival);
        black_box(library::sources_arrive(&mut table, (1 + i % sources) as u32, wire, mark));
    }
    table
}

/// The same records, each by itself.
fn sources_alone(list: &[(u16, u8)], sources: usize) -> Vec<library::Source> {
    let mut records = vec![library::Source::default(); sources];
    for (i, &arrival) in list.iter().enumerate() {
        let (wire, mark) = black_box(arrival);
        black_box(library::arrive(&mut records[i % sources], wire, mark));
    }
    records
}

fn table(sources: usize) {
    let (link, name) = LINKS[1];
    let each: Vec<_> = Arrivals::new(link, 1).take(CALLS / sources).collect();
    let list: Vec<_> = each.iter().flat_map(|&arrival| std::iter::repeat_n(arrival, sources)).collect();
    let records: Vec<_> = table_ours(&list, sources).chunks(11).map(|place| place[1..].to_vec()).collect();
    assert!(sources_alone(&list, sources).iter().map(|record| record.to_vec()).eq(records), "the table's records differ");
    let input = format!("{name}, {sources} sources in turn");
    let runs = vec![run(|| table_ours(&list, sources)), run(|| sources_alone(&list, sources))];
    lines("sources_arrive, a packet", &input, &["`flasknib_arrive` on each record"], list.len(), runs);
}

fn reading() {
    let bytes = compound::sample(MEDIA);
    let ours = || {
        let mut found = [0; 25];
        let answer = library::read_compound(black_box(&bytes), MEDIA, black_box(0), &mut found);
        if answer == 0 { Ok(found) } else { Err(answer) }
    };
    let other = || compound::read(black_box(&bytes), MEDIA, black_box(false));
    assert_eq!(ours(), other(), "the compounds read differ");
    assert!(ours().is_ok_and(|found| found[0] + found[7] + found[16] == 3), "all three reports are found");
    let runs = vec![run_many(|_| ours()), run_many(|_| other())];
    lines("read_compound, a compound", "SR, ECN feedback, XR summary: 116 bytes", &["plain Rust"], CALLS, runs);
}

fn run_many<'a, T>(mut give: impl FnMut(usize) -> T + 'a) -> Run<'a> {
    Box::new(move || {
        for i in 0..CALLS {
            black_box(give(i));
        }
    })
}

/// A report each second or so, with losses that never stop the sender.
fn reports() -> Vec<Report> {
    let mut random = random::Random(1);
    let mut time = 0;
    let one = |i: usize| {
        time += 900 + random.below(200);
        let (fraction, rtt) = (random.below(8), 20 + random.below(60));
        Report { time, highest: 50 * i as u32, fraction, rtt, size: 1_000, rate: 100_000 + random.below(50_000) }
    };
    (1..=CALLS).map(one).collect()
}

fn breaking(k: u64) {
    let list = reports();
    let begin = || (library::breaker_start(k, 3, 15_000, 0), Breaker::start(k as usize, 3, 15_000, 0));
    let (mut ours, mut other) = begin();
    for report in &list {
        let answer = library::breaker_report(&mut ours, report);
        assert_eq!(answer, other.report(report), "the breakers answer differently");
        assert_eq!(answer, 0, "no report stops the sender");
    }
    let ours = || {
        let mut breaker = begin().0;
        list.iter().map(|r| u64::from(black_box(library::breaker_report(&mut breaker, black_box(r))))).sum::<u64>()
    };
    let other = || {
        let mut breaker = begin().1;
        list.iter().map(|r| u64::from(black_box(breaker.report(black_box(r))))).sum::<u64>()
    };
    let input = format!("k = {k}");
    lines("breaker_report, a report", &input, &["plain Rust"], CALLS, vec![run(ours), run(other)]);
}

fn writing() {
    let mut source = library::Source::default();
    for (wire, mark) in Arrivals::new(LINKS[1].0, 1).take(1_000_000) {
        library::arrive(&mut source, wire, mark);
    }
    let (mut a, mut b) = ([0u8; 1_280], [0u8; 1_280]);
    let n = library::write_row(LABEL, MEDIA, &source, 200, 0, &mut a);
    assert_eq!(n, row::write_row(LABEL, MEDIA, &source, 200, 0, &mut b), "the rows' lengths differ");
    assert!(n > 0 && a == b, "the rows differ");
    let runs = vec![
        run_many(|i| library::write_row(LABEL, MEDIA, black_box(&source), i as u64, 0, black_box(&mut a))),
        run_many(|i| row::write_row(LABEL, MEDIA, black_box(&source), i as u64, 0, black_box(&mut b))),
    ];
    let input = format!("a row of {n} bytes");
    lines("write_row, a row", &input, &["plain Rust, `write!`"], CALLS, runs);
}

/// A trace in stretches, beside the whole trace in one feed: the loop over its blocks is that of ecntable's run in one go.
fn feeding() {
    let trace = feeds::trace(LABEL, MEDIA);
    let all = trace.len();
    let whole = feeds::fed(&trace, all, &mut feeds::room(all));
    assert!(whole.2 == 0 && whole.1 > 0, "the trace is whole");
    for stretch in feeds::STRETCHES {
        assert_eq!(feeds::fed(&trace, stretch, &mut feeds::room(stretch)), whole, "the cuts differ");
        let timed = |length: usize| -> Run {
            let (trace, mut rows) = (&trace, feeds::room(length));
            Box::new(move || {
                black_box(feeds::fed(black_box(trace), length, &mut rows));
            })
        };
        let input = format!("stretches of {stretch} {}", if stretch == 1 { "byte" } else { "bytes" });
        lines("feed, a block", &input, &["all in one feed"], feeds::BLOCKS, vec![timed(stretch), timed(all)]);
    }
}

fn main() {
    let machine = std::env::args().nth(1).expect("the machine's word");
    let rounds = medians::setting("ROUNDS", 11);
    println!("Calls through the static library, in ns of processor time; {machine}, median of {rounds} interleaved rounds.");
    println!("The other is inlined Rust. Ours checks the whole record's soundness on each call, the arrival call too; the rings check no record.");
    println!("\"The same checks on the same words\" is Rust over the ten words with every check that ours makes.\n");
    println!("| call | input | ours | other | its time | other / ours |\n|---|---|---|---|---|---|");
    counting();
    table(3);
    table(16);
    reading();
    breaking(3);
    breaking(32);
    writing();
    feeding();
}

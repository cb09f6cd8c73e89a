//! The crate held to document 01's examples C1 to C12, to what the examples in C print, to the samples, and to its own words. Run by cargo, or by rustc
//! --test from anywhere below the repository.
use flasknib::{
    answer, ecn_between, head_line, header, read_attribute, read_block, read_compound, record_at, refused_line, rows, salvage, space_label,
    write_arrivals, write_label, write_records, Answer, Arrival, Attribute, Between, Breaker, Counted, Ect, Error, Feed, Form, Forms, Kind, Mark,
    Method, Mode, Profile, Reason, Record, Refusal, Refused, Row, Sending, Settings, Source, Sources, Streams,
};
use std::io::{self, Read};
use std::path::PathBuf;

const C1: [(u16, u8); 5] = [(65534, 2), (65535, 2), (0, 3), (0, 3), (3, 1)];
const SENDING: Sending = Sending { rtt: 100, size: 1000, rate: 125_000 };

fn top() -> PathBuf {
    let here = std::env::current_dir().unwrap();
    here.ancestors().find(|folder| folder.join("samples/c1.trace").exists()).expect("a folder of the repository").to_path_buf()
}

fn sample(name: &str) -> Vec<u8> {
    std::fs::read(top().join("samples").join(name)).unwrap()
}

fn counted(arrivals: &[(u16, u8)]) -> Source {
    let mut source = Source::default();
    for &(wire, mark) in arrivals {
        source.arrive(wire, mark).unwrap();
    }
    source
}

fn refused<T: std::fmt::Debug>(outcome: Result<T, Refused>) -> u8 {
    outcome.unwrap_err().refusal.number()
}

fn hex(bytes: &[u8]) -> String {
    bytes.chunks(4).map(|word| word.iter().map(|byte| format!("{byte:02X}")).collect::<String>()).collect::<Vec<_>>().join(" ")
}

/// A trace of form 1 with these blocks of arrivals: the first number of each, and how many.
fn trace(blocks: &[(u16, u16)]) -> Vec<u8> {
    let mut made = write_label(Form::One, b"ward 3", 7).unwrap().to_vec();
    for &(first, count) in blocks {
        let numbers: Vec<u16> = (first..first + count).collect();
        let (times, marks) = (vec![5; numbers.len()], vec![2; numbers.len()]);
        made.extend(write_arrivals(Form::One, &times, &numbers, &marks, 7).unwrap());
    }
    made
}

/// What ecntable prints of a trace that comes in stretches of so many bytes.
fn table_of(trace: &[u8], most: usize) -> Vec<u8> {
    let (mut feed, mut table) = (Feed::default(), head_line().to_vec());
    let fed = trace.chunks(most).try_for_each(|stretch| feed.feed(stretch, &mut table)).and_then(|()| feed.close());
    if let Err(Refused { refusal, block, .. }) = fed {
        table.extend(refused_line(refusal.number(), block.unwrap()));
    }
    table
}

#[test]
fn c1_to_c4() {
    let source = counted(&C1);
    assert_eq!((source.base(), source.highest(), source.lost().unwrap(), source.duplicates()), (65534, 65539, 2, 1));
    assert_eq!((source.ect0(), source.ect1(), source.ce(), source.not_ect()), (2, 1, 2, 0));
    assert_eq!(hex(&source.feedback(9, 1).unwrap()), "88CD0007 00000009 00000001 00010003 00000002 00000001 00020000 00020001");
    assert_eq!(hex(&source.summary(1).unwrap()), "0D000005 00000001 00000002 00000001 00020000 00020001");
    let early = counted(&[(10, 0), (9, 0)]);
    assert_eq!((early.lost().unwrap(), &early.feedback(9, 1).unwrap()[28..30]), (-1, &[255, 255][..]));
}

#[test]
fn c5_to_c8() {
    for (wire, arrival) in [(7999, Arrival::Counted), (8000, Arrival::Jump), (4901, Arrival::Counted), (4900, Arrival::Jump)] {
        assert_eq!(counted(&[(5000, 0)]).arrive(wire, Mark::NotEct), Ok(arrival));
    }
}

#[test]
fn c9_to_c12() {
    let last = |fraction, rtt, rate| {
        let mut breaker = Breaker::start(0, Settings { k: 2, ..Settings::default() }).unwrap();
        let report = |n: u32| breaker.report(5000 * u64::from(n), n, fraction, Sending { rtt, size: 1000, rate }).unwrap();
        (1..=3).map(report).last().unwrap()
    };
    for (fraction, rtt, rate) in [(64, 100, 244_948), (150, 16, 1_000_000)] {
        assert_eq!(last(fraction, rtt, rate), Answer::Go);
        assert_eq!(last(fraction, rtt, rate + 1), Answer::Stop(Reason::Congestion));
    }
}

#[test]
fn a_sender_that_begins_again() {
    let mut source = counted(&C1);
    assert_eq!((source.arrive(30000, 2), source.arrive(30001, 2), source.highest()), (Ok(Arrival::Jump), Ok(Arrival::Restarted), 30001));
    let mut other = counted(&C1);
    let records = [0x75, 0x30, 2, 0, 0x75, 0x31, 2, 0, 0x75, 0x32, 3, 0];
    assert_eq!(other.count_block(&records, 4), Ok(Counted { jumps: 1, restarts: 1 }));
    assert_eq!(other.row(b"probe 2, left", 1, 1, 1).unwrap(), b"\"probe 2, left\",1,30002,1,0,1,0,0,0,1,1\r\n");
}

#[test]
fn a_path_that_marks_every_packet() {
    let (mut sources, mut breaker) = (Sources::new(1), Breaker::start(0, Settings::default()).unwrap());
    let mut answers = vec![];
    for second in 1..=4u16 {
        (0..125).for_each(|n| assert_eq!(sources.arrive(1, 125 * second + n, Mark::Ce), Ok(Arrival::Counted)));
        let (compound, before) = (sources.compound(9).unwrap(), breaker.clone());
        assert_eq!(refused(breaker.packet(&compound[..compound.len() - 1], 1, 9000, SENDING)), 4);
        if second > 1 {
            assert_eq!(refused(breaker.packet(&compound, 1, 1000 * u64::from(second - 1), SENDING)), 11);
        }
        assert_eq!(breaker, before);
        answers.push(breaker.packet(&compound, 1, 1000 * u64::from(second), SENDING).unwrap());
        assert_ne!(breaker.kept(), before.kept());
    }
    assert_eq!(answers, [Answer::Go, Answer::Go, Answer::Go, Answer::Stop(Reason::Congestion)]);
    assert_eq!(breaker.tick(1), Ok(Answer::Stop(Reason::Congestion)));
    assert_eq!(Breaker::of(*breaker.words(), *breaker.kept()), breaker);
}

/// An RR of SSRC 9, with a report block about SSRC 1.
fn receiver_report(block: Option<[u32; 5]>) -> Vec<u8> {
    let words = match block {
        None => vec![0x80C9_0001, 9],
        Some(block) => [&[0x81C9_0007, 9, 1][..], &block].concat(),
    };
    words.iter().flat_map(|word: &u32| word.to_be_bytes()).collect()
}

#[test]
fn what_a_packet_says() {
    let read = read_compound(&receiver_report(Some([0x40FF_FFFF, 70000, 5, 6, 7])), 1, Profile::Compound).unwrap();
    let report = read.report().unwrap();
    assert_eq!((report.fraction, report.lost, report.highest), (64, -1, 70000));
    assert_eq!((report.jitter, report.lsr, report.dlsr, read.feedback(), read.words().len()), (5, 6, 7, None, header::COMPOUND_WORDS));
    assert_eq!((report.reporter, read.receiver()), (9, Some(9)));
    let extended = [&receiver_report(None)[..], &[0x80, 0xCF, 0, 7, 0, 0, 0, 9], &counted(&C1).summary(1).unwrap()].concat();
    let summary = read_compound(&extended, 1, Profile::Compound).unwrap().summary().unwrap();
    assert_eq!((summary.ect0, summary.ect1, summary.ce, summary.not_ect, summary.lost, summary.duplicates), (2, 1, 2, 0, 2, 1));
    assert_eq!(refused(read_compound(&extended[8..], 1, Profile::Compound)), 3);
    assert!(!read_compound(&extended[8..], 1, Profile::ReducedSize).unwrap().sr_or_rr());
    assert_eq!((flasknib::since16(3, 65535), flasknib::since32(0, 1), flasknib::lost_since(0, 3)), (4, u32::MAX, -3));
}

#[test]
fn which_call_a_packet_is_for() {
    let (mut sources, mut packets) = (Sources::default(), vec![]);
    for numbers in [&[10, 11][..], &[20, 21], &[12, 13, 14, 22]] {
        numbers.iter().for_each(|&number| assert_eq!(sources.arrive(1, number, Mark::Ce), Ok(Arrival::Counted)));
        packets.push(sources.compound(9).unwrap());
    }
    assert_eq!(sources.held(), Ok(1));
    packets.push(receiver_report(Some([0x4000_0003, 70000, 0, 0, 0])));
    packets.push(receiver_report(None));
    let counts = |lost, marked, expected| Between { lost, marked, expected };
    let slow = Sending { rtt: 70_000, rate: 200_000_000, ..SENDING };
    let limits = Sending { rtt: 60_000, rate: 125_000_000, ..SENDING };
    for (given, taken) in [(SENDING, SENDING), (slow, limits)] {
        let settings = Settings { k: 32, timeout: 600_000, ..Settings::default() };
        let (mut by_packets, mut by_calls) = (Breaker::start(0, settings).unwrap(), Breaker::start(0, settings).unwrap());
        for (packet, at) in packets.iter().zip(1..) {
            let time = 1000 * at;
            let answer = match at {
                1 => by_calls.report_ecn(time, 11, counts(0, 0, 0), taken),
                2 => by_calls.report_ecn(time, 21, counts(8, 2, 10), taken),
                3 => by_calls.report_ecn(time, 22, counts(-3, 4, 1), taken),
                4 => by_calls.report(time, 70000, 64, taken),
                _ => by_calls.heard(time),
            };
            assert_eq!(by_packets.packet(packet, 1, time, given), answer);
            assert_eq!(by_packets.words(), by_calls.words());
        }
    }
}

#[test]
fn breakers() {
    let mut breaker = Breaker::start(0, Settings::default()).unwrap();
    assert_eq!((breaker.heard(100), breaker.tick(15099), refused(breaker.tick(99))), (Ok(Answer::Go), Ok(Answer::Go), 11));
    assert_eq!(breaker.tick(15100), Ok(Answer::Stop(Reason::Timeout)));
    assert_eq!(refused(Breaker::start(0, Settings { k: 33, ..Settings::default() })), 10);
    let mut breaker = Breaker::start(0, Settings { k: 1, reduce: true, ..Settings::default() }).unwrap();
    let much = Sending { rate: 100_000_000, ..SENDING };
    assert_eq!([5000, 10000].map(|time| breaker.report(time, time as u32, 64, much).unwrap()), [Answer::Go, Answer::Reduce]);
    let mut breaker = Breaker::start(0, Settings::default()).unwrap();
    let stalled = [1, 2, 3, 4].map(|time| breaker.report(time, 7, 0, SENDING).unwrap());
    assert_eq!(stalled, [Answer::Go, Answer::Go, Answer::Go, Answer::Stop(Reason::Media)]);
}

#[test]
fn several_sources() {
    let mut sources = Sources::new(2);
    for (ssrc, wire) in [(900, 17), (100, 5), (900, 19)] {
        sources.arrive(ssrc, wire, Mark::Ect0).unwrap();
    }
    let found: Vec<_> = sources.all().unwrap().iter().map(|(ssrc, source)| (*ssrc, source.highest(), source.lost().unwrap())).collect();
    assert_eq!(found, [(100, 5, 0), (900, 19, 1)]);
    assert_eq!((refused(sources.arrive(7, 1, Mark::Ce)), refused(sources.place(2))), (15, 10));
    assert_eq!(refused(Sources::new(17).arrive(7, 1, Mark::Ce)), 16);
    assert_eq!(Sources::of(sources.words()), sources);
    assert_eq!(refused(Sources::of(&sources.words()[1..]).all()), 16);
    let mut words = sources.words().to_vec();
    words[header::PLACE_SOURCE + header::SOURCE_REMEMBERED] = 1 << 17;
    assert_eq!(refused(Sources::of(&words).all()), 9);
    assert_eq!(sources.clone().count_block(100, &[0x75, 0x30, 2, 0, 0x86, 0xC4, 2, 0], 4), Ok(Counted { jumps: 2, restarts: 0 }));
    let compound = sources.compound(9).unwrap();
    let read = read_compound(&compound, 900, Profile::Compound).unwrap();
    let feedback = read.feedback().unwrap();
    assert_eq!((feedback.sender, feedback.highest, feedback.ect0, feedback.lost), (9, 19, 2, 1));
    assert_eq!((read.report(), read.summary(), read.sr_or_rr()), (None, None, true));
    sources.arrive(900, 24, Mark::Ce).unwrap();
    let later = read_compound(&sources.compound(9).unwrap(), 900, Profile::ReducedSize).unwrap().feedback().unwrap();
    let between = ecn_between(&later, &feedback).unwrap();
    assert_eq!((between.lost, between.marked, between.expected), (4, 1, 5));
    assert_eq!(refused(ecn_between(&feedback, &later)), 10);
}

#[test]
fn offers_and_answers() {
    let ours = read_attribute(b"a=ecn-capable-rtp: leap,ice mode=setonly; ect=1").unwrap();
    assert_eq!(ours, Attribute { methods: vec![Method::Leap, Method::Ice], mode: Mode::SetOnly, ect: Ect::One });
    let offer = read_attribute(b"a=ecn-capable-rtp: rtp,ice ect=0; mode=setread").unwrap();
    assert_eq!(answer(&offer, &ours).unwrap().unwrap().line().unwrap(), b"a=ecn-capable-rtp: ice mode=setonly; ect=1");
    assert_eq!(answer(&read_attribute(b"a=ecn-capable-rtp: ice mode=setonly").unwrap(), &ours), Ok(None));
    assert_eq!(refused(read_attribute(b"a=ecn-capable-rtp: ice rtp ect=0 mode=setread")), 18);
    for (mode, ect) in [(Mode::SetOnly, Ect::Zero), (Mode::ReadOnly, Ect::One), (Mode::SetRead, Ect::Random), (Mode::Absent, Ect::Absent)] {
        let each = Attribute { methods: vec![Method::Leap, Method::Rtp, Method::Ice], mode, ect };
        assert_eq!(read_attribute(&each.line().unwrap()), Ok(each));
    }
    let plain = |count| Attribute { methods: vec![Method::Rtp; count], mode: Mode::Absent, ect: Ect::Absent };
    assert_eq!((refused(plain(0).line()), refused(plain(9).line()), refused(answer(&plain(9), &ours))), (10, 10, 10));
    assert_eq!(plain(1).line().unwrap(), b"a=ecn-capable-rtp: rtp");
}

#[test]
fn blocks() {
    let label = write_label(Form::Two, b"ward 3", 7).unwrap();
    let found = read_block(&label).unwrap();
    assert_eq!((found.kind, found.held, found.ssrc), (Kind::LabelTwo, 6, 7));
    let block = write_arrivals(Form::Two, &[5, (1 << 48) - 1], &[1, 65535], &[0, 3], 7).unwrap();
    assert_eq!(record_at(&block, 1), Ok(Record { time: (1 << 48) - 1, wire: 65535, mark: 3 }));
    assert_eq!(write_records(Form::Two, &block[8..28], 7), Ok(block));
    assert_eq!((refused(record_at(&block, 2)), refused(write_label(Form::One, b"a\nb", 7)), refused(read_block(&label[1..]))), (10, 19, 1));
    assert_eq!(refused(write_arrivals(Form::One, &[5], &[1, 2], &[0], 7)), 10);
    let (spaced, replaced) = space_label(&sample("returns.trace")[..512]).unwrap();
    assert_eq!((&spaced[..], replaced), (&sample("spaced.trace")[..512], 3));
}

/// A row as the table has it.
fn text(row: &Row) -> String {
    let label = String::from_utf8(row.label.clone()).unwrap();
    let label = if label.contains([',', '"', '\r', '\n']) { format!("\"{}\"", label.replace('"', "\"\"")) } else { label };
    let Row { ssrc, highest, ect0, ect1, ce, not_ect, lost, duplicates, jumped, restarts, .. } = row;
    format!("{label},{ssrc},{highest},{ect0},{ect1},{ce},{not_ect},{lost},{duplicates},{jumped},{restarts}\r\n")
}

#[test]
fn tables_of_the_samples() {
    for name in ["c1", "damaged", "long", "reboot", "returns", "salvaged", "spaced", "weeks"] {
        let (given, table) = (sample(&format!("{name}.trace")), sample(&format!("{name}.csv")));
        for most in [1, 511, 512, 1448, 65536, 70000] {
            assert_eq!(table_of(&given, most), table);
        }
        let mut found = String::from_utf8(head_line().to_vec()).unwrap();
        for row in rows(&given[..]) {
            match row {
                Ok(row) => found += &text(&row),
                Err(Error::Refused(fault)) => found += &format!("refused {} block {}\r\n", fault.refusal.number(), fault.block.unwrap()),
                Err(Error::Io(error)) => panic!("{error}"),
            }
        }
        assert_eq!(found.as_bytes(), table);
    }
}

#[test]
fn other_forms_streams_and_what_is_left() {
    let given = sample("c1.trace");
    let (mut forms, label) = Forms::start(&given[..512]).unwrap();
    let second = [&label[..], &forms.block(&given[512..]).unwrap(), &forms.close().unwrap()].concat();
    let (mut forms, label) = Forms::start(&second[..512]).unwrap();
    assert_eq!([&label[..], &forms.block(&second[512..]).unwrap(), &forms.close().unwrap()].concat(), given);

    let given = sample("streams/scanners.trace");
    let mut run = Streams::start(&given[..512]).unwrap();
    given[512..].chunks(512).for_each(|block| run.block(block).unwrap());
    assert_eq!((run.held(), [&head_line()[..], &run.table().unwrap()].concat()), (3, sample("streams/scanners.csv")));
    assert_eq!(refused(run.block(&[0; 512])), 13);

    let (mut copy, mut listed) = (vec![], vec![]);
    for each in salvage(&sample("damaged.trace")[..]).map(Result::unwrap) {
        match each.refused {
            None => copy.extend(each.block),
            Some(refused) => listed.push((refused.refusal.number(), each.index)),
        }
    }
    assert_eq!((copy, listed), (sample("salvaged.trace"), vec![(13, 5), (1, 9)]));
    let wrong: Vec<_> = salvage(&[0; 1024][..]).map(|each| refused(Err::<(), _>(each.unwrap().refused.unwrap()))).collect();
    assert_eq!(wrong, [13]);
}

#[test]
fn traces_that_are_cut() {
    let whole = trace(&[(10, 3), (13, 2)]);
    for end in 0..=whole.len() {
        let found: Vec<_> = rows(&whole[..end]).collect();
        let fault = found.last().and_then(|last| last.as_ref().err()).map(|error| match error {
            Error::Refused(refused) => (refused.refusal, refused.block),
            Error::Io(error) => panic!("{error}"),
        });
        let wanted = (end % 512 > 0 || end == 0).then_some((Refusal::Incomplete, Some(end as u64 / 512)));
        assert_eq!((found.iter().flatten().count(), fault), ((end / 512).saturating_sub(1), wanted));
    }
}

#[test]
fn a_refused_block_is_repeated() {
    let (mut feed, mut table) = (Feed::default(), vec![]);
    let given = [trace(&[(10, 3)]), vec![0; 512], trace(&[])].concat();
    assert_eq!(feed.feed(&given, &mut table).unwrap_err(), Refused { block: Some(2), ..Refusal::Checksum.into() });
    assert_eq!(table, b"ward 3,7,12,3,0,0,0,0,0,0,0\r\n");
    assert_eq!((refused(feed.feed(b"", &mut table)), refused(feed.close()), table.len()), (13, 13, 29));
    assert_eq!(Feed::of(*feed.words(), *feed.kept()), feed);
    for word in [5, 9, u64::MAX] {
        let mut wrong = Feed::of([word; header::UPLOAD_WORDS], [0; header::UPLOAD_KEPT_BYTES]);
        let malformed = Err(Refusal::Malformed.into());
        assert_eq!((wrong.feed(&given, &mut table), wrong.close(), table.len()), (malformed, malformed, 29));
    }
    let long = trace(&(0..500).map(|n| (n, 1)).collect::<Vec<_>>());
    assert_eq!(table_of(&long, 1 << 20), table_of(&long, 700));
}

#[test]
fn reads_that_fail() {
    struct Broken(usize);
    impl Read for Broken {
        fn read(&mut self, out: &mut [u8]) -> io::Result<usize> {
            let whole = trace(&[(10, 3)]);
            let length = (whole.len() - self.0).min(out.len()).min(100);
            out[..length].copy_from_slice(&whole[self.0..self.0 + length]);
            self.0 += length;
            if length > 0 {
                Ok(length)
            } else {
                Err(io::Error::other("the stick is gone"))
            }
        }
    }
    let found: Vec<_> = rows(Broken(0)).collect();
    assert!(matches!(&found[..], [Ok(_), Err(Error::Io(_))]));
    assert!(matches!(&salvage(Broken(0)).collect::<Vec<_>>()[..], [Ok(_), Ok(_), Err(_)]));
}

#[test]
fn refusals() {
    for number in 0..=255 {
        match Refusal::of(number) {
            Some(refusal) => {
                let mut text = [0; header::REFUSAL_TEXT_MOST_BYTES];
                let length = header::refusal_text(number, &mut text) as usize; // the texts are the library's
                assert_eq!((refusal.number(), refusal.text().as_bytes()), (number, &text[..length]));
                assert!(!refusal.name().is_empty());
            }
            None => assert!(!(1..=header::REFUSALS.len()).contains(&usize::from(number))),
        }
    }
    assert_eq!(header::version() as usize, header::VERSION);
    let short = counted(&C1).row_into(b"probe 2, left", 1, 0, 0, &mut []).unwrap_err();
    assert_eq!((short.refusal, short.size), (Refusal::Room, Some(41)));
    assert!(short.to_string().starts_with("refused 12: the output is too small") && short.to_string().ends_with("(41 bytes are needed)"));
    let text = Refused { block: Some(5), ..Refusal::Checksum.into() }.to_string();
    assert!(text.starts_with("refused 13 block 5: "));
    let error: Box<dyn std::error::Error + Send + Sync> = short.into();
    assert!(error.downcast_ref::<Refused>().is_some());
    let malformed = Source::of([1, 0, 0, 0, 0, 0, 0, 0, 0, 0]);
    assert_eq!((refused(malformed.lost()), malformed.row(b"", 1, 0, 0).unwrap_err().size), (9, None));
    assert_eq!(refused(Source::default().arrive(1, 4)), 10);
}

#[test]
fn states_are_values() {
    fn sent<T: Send + Sync + Clone>() {}
    sent::<Source>();
    sent::<Sources>();
    sent::<Breaker>();
    sent::<Feed>();
    let source = counted(&C1);
    let mut other = source.clone();
    other.arrive(4, Mark::Ce).unwrap();
    assert_eq!((source.ce(), other.ce()), (2, 3));
    assert_eq!(Source::of(*source.words()), source);
}

//! received FOLDER: compounds that GStreamer 1.22 sent, read by the library under both profiles. Each file has a line a compound, in three columns
//! separated by tabs: the UDP payload in hexadecimal; the types of its packets; its report blocks in order, separated by spaces, each
//! `SSRC,fraction,cumulative lost,extended highest,jitter,LSR,DLSR` in decimal. The last two columns are what tshark 4.0.17 shows of it.
#[path = "../compare/calls.rs"]
#[allow(dead_code)]
mod calls;
#[path = "../compare/library.rs"]
mod library;

use calls::Calls;
use library::Library;
use model::compound::WORDS;

/// The file, how many of its compounds begin with an SR or an RR, and how many there are.
const CAPTURES: [(&str, usize, usize); 2] = [("gstreamer-avp.tsv", 323, 323), ("gstreamer-reduced.tsv", 291, 1_242)];

/// An SSRC that no report block is about, and what stands in the lent words before a call.
const NOBODY: u32 = 1;
const UNTOUCHED: u64 = 9;

struct Line {
    payload: Vec<u8>,
    kinds: Vec<u8>,
    /// The SSRC and the six fields, as the header's words have them.
    blocks: Vec<(u32, [u64; 6])>,
}

fn main() {
    let folder = std::env::args().nth(1).expect("a folder");
    let (mut asked, mut told) = (0, Vec::new());
    for (name, full, all) in CAPTURES {
        let text = std::fs::read_to_string(format!("{folder}/{name}")).expect("a capture");
        let lines: Vec<Line> = text.lines().map(line).collect();
        let mut accepted = [0, 0];
        for (number, line) in lines.iter().enumerate() {
            for profile in [0, 1] {
                let about = line.blocks.iter().map(|block| block.0).chain([NOBODY]);
                let right = about.map(|media| is_right(line, media, profile)).collect::<Vec<bool>>();
                if !right.iter().all(|right| *right) {
                    println!("received: FAILED, line {} of {name} under profile {profile}", number + 1);
                    std::process::exit(1);
                }
                asked += right.len();
                accepted[usize::from(profile)] += usize::from(expected(line, profile) == 0);
            }
        }
        if (accepted, lines.len()) != ([full, all], all) {
            println!("received: FAILED, of {} compounds in {name} {accepted:?} are accepted", lines.len());
            std::process::exit(1);
        }
        told.push(format!("{full} of {all} in {name}"));
    }
    println!(
        "received: accepted are {}, and all of them as reduced-size compounds; {asked} readings have the report blocks that tshark shows",
        told.join(" and ")
    );
}

fn line(text: &str) -> Line {
    let columns: Vec<&str> = text.split('\t').collect();
    let payload = columns[0].as_bytes().chunks(2).map(|pair| u8::from_str_radix(std::str::from_utf8(pair).unwrap(), 16).unwrap());
    let kinds = columns[1].split(' ').map(|kind| kind.parse().unwrap());
    Line { payload: payload.collect(), kinds: kinds.collect(), blocks: columns[2].split_whitespace().map(block).collect() }
}

fn block(text: &str) -> (u32, [u64; 6]) {
    let fields: Vec<i64> = text.split(',').map(|field| field.parse().unwrap()).collect();
    assert_ne!(fields[0], i64::from(NOBODY), "no block is about nobody");
    (fields[0] as u32, std::array::from_fn(|i| fields[1 + i] as u64))
}

fn is_report(kind: &u8) -> bool {
    matches!(kind, 200 | 201)
}

/// 0, or 3 where the old profile is lent a compound that begins with another packet.
fn expected(line: &Line, profile: u8) -> u8 {
    if profile == 1 || is_report(&line.kinds[0]) { 0 } else { 3 }
}

fn is_right(line: &Line, media: u32, profile: u8) -> bool {
    let mut found = [UNTOUCHED; WORDS];
    let answer = Library.read_compound(&line.payload, media, profile, &mut found);
    let mut words = [if answer == 0 { 0 } else { UNTOUCHED }; WORDS];
    if answer == 0 {
        if let Some((_, fields)) = line.blocks.iter().find(|block| block.0 == media) {
            words[0] = 1;
            words[1..7].copy_from_slice(fields);
            // GStreamer sends one SR or RR in a compound, in front: what stands behind its header is who reports.
            words[24] = u64::from(u32::from_be_bytes(line.payload[4..8].try_into().unwrap()));
        }
        words[23] = u64::from(line.kinds.iter().any(is_report));
    }
    answer == expected(line, profile) && found == words
}

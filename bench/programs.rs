//! Times `cat`, a loop that reads and writes, our programs and the other ones on traces. Arguments: the folder of ours, that of the others, the traces and
//! the outputs, and the machine's word.
mod arrivals;
mod blocks;
mod form;
mod medians;
mod random;
mod records;

use arrivals::{Arrivals, LINKS, Link};
use form::{Form, ONE, TWO};
use std::fs::{self, File};
use std::io::{self, BufWriter, Write};
use std::path::{Path, PathBuf};
use std::process::{Command, Stdio};

/// The time on the wall.
const WALL: medians::Clock = medians::Clock(1);
const SSRC: u32 = 3_735_928_559;
const LABEL: &[u8] = b"probe 2, left";

/// Our program, the other one, the links of its traces, the sources in them, and of how many blocks one is damaged (0: none).
const PROGRAMS: [(&str, &str, &[(Link, &str)], usize, usize); 6] = [
    ("ecntable", "ecnrust", &LINKS, 1, 0),
    ("ecnforms", "formsrust", LOSSY, 1, 0),
    ("ecnlabel", "labelrust", LOSSY, 1, 0),
    ("ecnsalvage", "salvagerust", LOSSY, 1, 1_000),
    ("ecnstreams", "streamsrust", LOSSY, 3, 0),
    ("ecnstreams", "streamsrust", LOSSY, 16, 0),
];

const LOSSY: &[(Link, &str)] = &[LINKS[1]];

/// Writes a trace of so many sources and MB, block by block, the sources in turn. In every so many blocks a byte of one is changed.
fn write_trace(path: &Path, form: Form, link: Link, sources: usize, damaged: usize, megabytes: usize) -> io::Result<()> {
    let mut out = BufWriter::new(File::create(path)?);
    let mut lists: Vec<Arrivals> = (1..=sources).map(|seed| Arrivals::new(link, seed as u64)).collect();
    out.write_all(&blocks::label(form, LABEL, SSRC))?;
    for i in 1..megabytes * 1_000_000 / blocks::BLOCK {
        let source = 7 * i % sources;
        let records = records::records(form, (20 * form.most * i) as u64, &mut lists[source]);
        let mut block = blocks::arrivals(form, &records, SSRC - source as u32);
        if damaged > 0 && i % damaged == damaged / 2 {
            block[i % blocks::BLOCK] ^= 1;
        }
        out.write_all(&block)?;
    }
    out.flush()
}

fn told(out: &Path) -> PathBuf {
    out.with_extension("err")
}

/// Runs a program on a trace. Standard error goes to a file beside the output.
fn convert(program: &Path, trace: &Path, out: &Path) {
    let input = File::open(trace).expect("a trace");
    let [output, errors] = [out, &told(out)].map(|path| File::create(path).expect("an output"));
    let status = Command::new(program).stdin(Stdio::from(input)).stdout(Stdio::from(output)).stderr(Stdio::from(errors)).status();
    assert!(status.expect("a program that starts").success(), "{} failed", program.display());
}

/// The medians of `cat`, a loop, ours and the other on one trace, each to a new file; the last two have to write the same on both outputs. The first two have
/// rounds of their own: what runs right behind them finds the trace pushed out of the processor's cache by their output.
fn measure(programs: &[PathBuf; 4], trace: &Path, folder: &Path, rounds: usize) -> Vec<f64> {
    let outs = ["cat.out", "loop.out", "ours.out", "other.out"].map(|name| folder.join(name));
    let mut runs: Vec<Box<dyn FnMut()>> = Vec::new();
    for (program, out) in programs.iter().zip(&outs) {
        convert(program, trace, out);
        runs.push(Box::new(move || convert(program, trace, out)));
    }
    let [one, other] = [2, 3].map(|i| [fs::read(&outs[i]), fs::read(told(&outs[i]))].map(|read| read.expect("an output")));
    assert!(one == other, "the outputs differ on {}", trace.display());
    let remove = || outs.iter().for_each(|out| [out, &told(out)].iter().for_each(|path| drop(fs::remove_file(path))));
    let (plain, converters) = runs.split_at_mut(2);
    [medians::medians(WALL, rounds, remove, plain), medians::medians(WALL, rounds, remove, converters)].concat()
}

fn main() -> io::Result<()> {
    let mut words = std::env::args().skip(1);
    let mut word = || words.next().expect("programs OURS FOLDER MACHINE");
    let (ours, folder, machine) = (PathBuf::from(word()), PathBuf::from(word()), word());
    let (megabytes, rounds) = (medians::setting("SIZE", 200), medians::setting("ROUNDS", 11));
    println!("Programs on traces of {megabytes} MB, in ms; {machine}, median of {rounds} interleaved rounds.\n");
    println!("| program | trace | `cat` | loop | ours | Rust program | Rust program / ours |\n|---|---|---|---|---|---|---|");
    for (form, of_form) in [(ONE, "form 1"), (TWO, "form 2")] {
        for (program, other, links, sources, damaged) in PROGRAMS {
            let programs = [PathBuf::from("cat"), folder.join("looprust"), ours.join(program), folder.join(other)];
            for &(link, name) in links {
                let trace = folder.join("trace");
                write_trace(&trace, form, link, sources, damaged, megabytes)?;
                let times = measure(&programs, &trace, &folder, rounds);
                let [cat, plain, ours, other] = [0, 1, 2, 3].map(|i| times[i] * 1e3);
                let more = match (sources, damaged) {
                    (1, 0) => String::new(),
                    (1, _) => format!(", one block in {damaged} damaged"),
                    _ => format!(", {sources} sources"),
                };
                medians::figure("programs", program, &format!("{of_form}, {name}{more}"), ours, "Rust program", other);
                println!("| {program} | {of_form}, {name}{more} | {cat:.0} | {plain:.0} | {ours:.0} | {other:.0} | {:.2} |", other / ours);
            }
        }
    }
    Ok(())
}

//! program BIN SAMPLES FOLDER [SEED]: traces fed to the programs in BIN, their outputs held to the model's byte for byte.
//! program --tables FOLDER COUNT [SEED]: traces and the values of their tables, for table.py.
mod back;
mod feed;
mod labels;
mod salvage;
mod tables;
mod tries;

use draw::Draw;
use feed::{Feed, Printed};
use salvage::Salvage;

const SEED: u64 = 20_260_802;

fn main() {
    let mut words: Vec<String> = std::env::args().skip(1).collect();
    let seed = words.drain(3..).next().map_or(SEED, |seed| seed.parse().expect("the seed is a number"));
    let draw = &Draw::seeded(seed);
    if words[0] == "--tables" {
        tables::write(draw, &words[1], words[2].parse().expect("the count is a number"));
        return;
    }
    let [bin, samples, folder] = [0, 1, 2].map(|i| words[i].as_str());
    let feed = |name: &str, model: fn(&[u8]) -> Printed| Feed::new(format!("{bin}/{name}"), model, folder, seed);
    let ecntable = &feed("ecntable", |trace| (model::converter::table(trace), Vec::new()));
    let ecnforms = &feed("ecnforms", model::forms::converted);
    let ecnstreams = &feed("ecnstreams", |trace| (model::streams::table(trace), Vec::new()));
    let ecnlabel = &feed("ecnlabel", model::labels::labelled);
    let ecnsalvage = &feed("ecnsalvage", model::salvage::salvaged);
    let tables = tries::samples(ecntable, samples) + tries::samples(ecnstreams, &format!("{samples}/streams"));
    labels::sample(ecnlabel, samples);
    let salvage = Salvage([ecntable, ecnforms, ecnsalvage]);
    salvage.sample(samples);
    let times = back::long_times(ecnforms, draw) + back::other_faults_first(ecnforms, draw);
    let (back, same) = back::there_and_back(ecntable, ecnforms, draw);
    let streams = tries::streams(ecnstreams, draw) + tries::seventeen(ecnstreams, draw);
    let copies = labels::copies(&[ecntable, ecnforms, ecnlabel], draw);
    let bytes = salvage.single_bytes(draw, samples);
    let [blocks, battered, stretches] = [salvage.whole_blocks(draw), salvage.battered(draw), salvage.long(draw)];
    let programs = [
        ("ecntable", ecntable, &["1", "13", "14"][..]),
        ("ecnforms", ecnforms, &["1", "13", "14", "17"]),
        ("ecnstreams", ecnstreams, &["1", "13", "14", "15"]),
        ("ecnlabel", ecnlabel, &["1", "13", "14"]),
        ("ecnsalvage", ecnsalvage, &["1", "13", "14"]),
    ];
    for (name, feed, possible) in programs {
        let whole = tries::whole_traces(feed, draw);
        let cut = tries::cut_tails(feed, draw);
        let long = tries::long_traces(feed, draw);
        let mutations = tries::mutations(feed, draw);
        println!(
            "program: {name}: {whole} whole traces, {cut} cut at each length, {long} long ones, {mutations} mutations, seed {seed}: each ends \
             with status 0 and prints what the model says (refused with {})",
            feed.refusals(possible)
        );
    }
    println!(
        "program: {tables} samples, {streams} traces of several streams, {times} traces with a time that needs form 2; {back} traces go there \
         and back with one last line of the table, {same} of them byte for byte; {copies} copies of traces with retired bytes in the label"
    );
    println!(
        "program: what is left of {bytes} traces with one byte changed, {blocks} with a block changed, moved or gone, {battered} with many faults \
         and {stretches} with faults around the ends of pieces"
    );
}

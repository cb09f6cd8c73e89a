//! compare [--only NAME,..] [--table FILE] [SEED]
//! The library through its C interface against the model: each call's answer and all that it was lent. --only names functions of the
//! header; the others are answered by the model alone. --table writes the number of calls and answers of each function.
mod attributes;
mod between;
mod big;
mod blocks;
mod boundary;
mod calls;
mod circuit;
mod compare;
mod conversions;
mod counting;
mod expected;
mod feeds;
mod forms;
mod labels;
mod lent;
mod library;
mod lists;
mod places;
mod queries;
mod reading;
mod reports;
mod restarts;
mod rows;
mod runs;
mod salvage;
mod streams;
mod stretches;
mod tables;
mod worked;

use compare::Compare;
use draw::Draw;

const SEED: u64 = 20_260_801;

fn main() {
    let (mut only, mut table, mut seed) = (None, None, SEED);
    let mut words = std::env::args().skip(1);
    while let Some(word) = words.next() {
        match word.as_str() {
            "--only" => only = words.next(),
            "--table" => table = words.next(),
            _ => seed = word.parse().expect("the seed is a number"),
        }
    }
    let compare = &Compare::new(seed, only.as_deref());
    let draw = &Draw::seeded(seed);
    worked::examples(compare);
    restarts::examples(compare);
    forms::examples(compare);
    labels::examples(compare);
    salvage::examples(compare);
    stretches::examples(compare);
    places::examples(compare);
    counting::calls(compare, draw);
    tables::calls(compare, draw);
    reports::calls(compare, draw);
    let mutations = reading::calls(compare, draw);
    let cuts = between::calls(compare, draw);
    circuit::calls(compare, draw);
    boundary::decisions(compare, draw);
    blocks::calls(compare, draw);
    rows::calls(compare, draw);
    queries::calls(compare, draw);
    runs::calls(compare, draw);
    conversions::calls(compare, draw);
    streams::calls(compare, draw);
    let (lists, orders) = lists::lists(compare, draw);
    let [heard, reports, with_counts] = between::packets(compare, draw);
    let (lines, answers) = attributes::calls(compare, draw);
    labels::calls(compare, draw);
    salvage::calls(compare, draw);
    let fed = feeds::calls(compare, draw);
    compare.close(table.as_deref());
    let (calls, functions) = (compare.calls(), compare.functions());
    println!(
        "compare: {calls} calls of {functions} functions, {mutations} mutations of compounds, {lists} lists and {orders} other orders of them, \
         {cuts} lists cut in two, packets for {heard} heard calls, {reports} reports and {with_counts} with counts, \
         {lines} lines that read and {answers} answers, {fed} cuts of traces, seed {seed}: as the model"
    );
}

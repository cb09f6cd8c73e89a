//! examples/count.c in Rust, over the crate in rust/flasknib: the same calls, the same output.
//! Build: rustc --edition 2021 --crate-name flasknib --crate-type rlib rust/flasknib/src/lib.rs -o libflasknib.rlib
//!        rustc --edition 2021 examples/rust/count.rs --extern flasknib=libflasknib.rlib -L target/lib -l static=flasknib
use flasknib::{head_line, Arrival, Refusal, Refused, Source};

const LABEL: &[u8] = b"probe 2, left";
const MEDIA: u32 = 1;
const SENDER: u32 = 9;
const ARRIVALS: [(u16, u8); 5] = [(65534, 2), (65535, 2), (0, 3), (0, 3), (3, 1)];
const REBOOTED: [u8; 12] = [0x75, 0x30, 2, 0, 0x75, 0x31, 2, 0, 0x75, 0x32, 3, 0]; // 30000, 30001, 30002, in records of 4 bytes, big-endian

fn print_words(name: &str, bytes: &[u8]) {
    let words: Vec<String> = bytes.chunks(4).map(|word| word.iter().map(|byte| format!("{byte:02X}")).collect()).collect();
    println!("{name}: {}", words.join(" "));
}

fn print_text(bytes: &[u8]) {
    print!("{}", String::from_utf8_lossy(bytes));
}

fn run() -> Result<(), Refused> {
    let mut source = Source::default();
    let (mut jumped, mut restarts) = (0, 0);

    for (wire, mark) in ARRIVALS {
        match source.arrive(wire, mark)? {
            Arrival::Counted => {}
            Arrival::Jump => jumped += 1,
            Arrival::Restarted => restarts += 1,
        }
    }

    println!("highest {}", source.highest());
    let counts = [("ECT(0)", source.ect0()), ("ECT(1)", source.ect1()), ("CE", source.ce()), ("not-ECT", source.not_ect())];
    for (name, count) in counts.into_iter().chain([("duplicates", source.duplicates())]) {
        println!("{name} {count}");
    }

    print_words("feedback", &source.feedback(SENDER, MEDIA)?);
    print_words("summary", &source.summary(MEDIA)?);
    match source.row_into(LABEL, MEDIA, jumped, restarts, &mut []) {
        Err(Refused { refusal: Refusal::Room, size: Some(size), .. }) => println!("row in 0 bytes: refused 12, {size} bytes"),
        Err(refused) => return Err(refused),
        Ok(_) => {}
    }
    print_text(&head_line());
    print_text(&source.row(LABEL, MEDIA, jumped, restarts)?);

    let counted = source.count_block(&REBOOTED, 4)?;
    print_text(&source.row(LABEL, MEDIA, jumped + counted.jumps, restarts + counted.restarts)?);
    Ok(())
}

fn main() {
    if let Err(refused) = run() {
        eprintln!("{refused}");
        std::process::exit(1);
    }
}

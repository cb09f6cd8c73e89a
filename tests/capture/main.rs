//! capture COUNT [SEED]: compounds of an 8-byte RR, an ECN feedback packet and an XR packet with an ECN summary block, the reports
//! written by the library. Each line has the compound in hexadecimal, the feedback's sender SSRC and the media SSRC.
#[path = "../compare/calls.rs"]
#[allow(dead_code)]
mod calls;
#[path = "../compare/library.rs"]
mod library;

use calls::Calls;
use draw::compounds::{RR, XR};
use draw::{sources, Draw};
use library::Library;

fn main() {
    let words: Vec<u64> = std::env::args().skip(1).map(|word| word.parse().expect("a number")).collect();
    let draw = &Draw::seeded(*words.get(1).unwrap_or(&20_260_803));
    for _ in 0..words[0] {
        let source = sources::sound(draw);
        let (sender, media) = (draw.u64() as u32, draw.u64() as u32);
        let (mut feedback, mut summary) = ([0; 32], [0; 24]);
        assert_eq!(Library.write_feedback(&source, sender, media, &mut feedback), 32);
        assert_eq!(Library.write_summary(&source, media, &mut summary), 24);
        let compound = [&RR[..], &feedback, &XR, &summary].concat();
        let hexadecimal: String = compound.iter().map(|byte| format!("{byte:02x}")).collect();
        println!("{hexadecimal} {sender} {media}");
    }
}

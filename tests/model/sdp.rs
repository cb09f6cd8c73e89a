//! Document 02, L12, and RFC 6679, section 6.1 with figure 5, and 6.1.1: the attribute ecn-capable-rtp read and written, and an offer answered.
use crate::refusal::*;

pub const WORDS: usize = 11;

/// How many methods are used, the methods (rtp 1, ice 2, leap 3), the mode (0 absent, 1 setonly, 2 readonly, 3 setread) and the ect (0 absent, 1 "1", 2 "0",
/// 3 random). Places behind the methods in use say nothing.
#[derive(Clone, Copy, Debug, PartialEq)]
pub struct Attribute {
    pub used: u64,
    pub methods: [u64; 8],
    pub mode: u64,
    pub ect: u64,
}

const NAME: &str = "a=ecn-capable-rtp:";
const METHODS: [&str; 3] = ["rtp", "ice", "leap"];
const MODES: [&str; 3] = ["setonly", "readonly", "setread"];
const ECTS: [&str; 3] = ["1", "0", "random"];

/// The number, from 1, of a word in a list, in either case of its letters.
fn number_in(words: &[&str], word: &str) -> Option<u64> {
    words.iter().position(|w| w.eq_ignore_ascii_case(word)).map(|i| i as u64 + 1)
}

/// RFC 4566, section 9: visible ASCII but for `"(),/:;<=>?@[\]`.
fn is_token(text: &str) -> bool {
    !text.is_empty() && text.chars().all(|c| c.is_ascii_graphic() && !"\"(),/:;<=>?@[\\]".contains(c))
}

/// What stands between the quotes: no control character, and a quote or a backslash only behind a backslash.
fn is_inner(text: &str) -> bool {
    let mut letters = text.chars();
    while let Some(letter) = letters.next() {
        let fine = match letter {
            '\\' => matches!(letters.next(), Some('\\' | '"')),
            '"' => false,
            _ => letter == ' ' || letter.is_ascii_graphic() || !letter.is_ascii(),
        };
        if !fine {
            return false;
        }
    }
    true
}

fn is_value(text: &str) -> bool {
    let quoted = text.len() >= 2 && text.starts_with('"') && text.ends_with('"');
    is_token(text) || quoted && is_inner(&text[1..text.len() - 1])
}

/// The parts between the semicolons that stand in no string.
fn parts(text: &str) -> Vec<&str> {
    let (mut found, mut from, mut quoted, mut escaped) = (Vec::new(), 0, false, false);
    for (i, letter) in text.char_indices() {
        if escaped {
            escaped = false;
        } else if quoted && letter == '\\' {
            escaped = true;
        } else if letter == '"' {
            quoted = !quoted;
        } else if letter == ';' && !quoted {
            found.push(&text[from..i]);
            from = i + 1;
        }
    }
    found.push(&text[from..]);
    found
}

/// A value that has none yet.
fn once(place: &mut u64, value: Option<u64>) -> Result<(), Refusal> {
    require(*place == 0 && value.is_some(), ATTRIBUTE)?;
    *place = value.unwrap_or(0);
    Ok(())
}

/// The parameters: how many there are, the mode and the ect.
fn parameters(text: &str) -> Result<(usize, u64, u64), Refusal> {
    let (mut mode, mut ect) = (0, 0);
    let all = parts(text);
    for (i, part) in all.iter().enumerate() {
        let part = if i == 0 { part } else { part.strip_prefix(' ').ok_or(ATTRIBUTE)? };
        let (name, value) = part.split_once('=').ok_or(ATTRIBUTE)?;
        if name.eq_ignore_ascii_case("mode") {
            once(&mut mode, number_in(&MODES, value))?;
        } else if name.eq_ignore_ascii_case("ect") {
            once(&mut ect, number_in(&ECTS, value))?;
        } else {
            require(is_token(name) && is_value(value), ATTRIBUTE)?;
        }
    }
    Ok((all.len(), mode, ect))
}

/// What a line says: 10 over 255 bytes; 18; 10 over 8 methods or parameters, unknown ones counted.
pub fn read(line: &[u8]) -> Result<Attribute, Refusal> {
    require(line.len() <= 255, LIMITS)?;
    let line = std::str::from_utf8(line).map_err(|_| ATTRIBUTE)?;
    let (name, rest) = line.split_once(' ').ok_or(ATTRIBUTE)?;
    require(name.eq_ignore_ascii_case(NAME), ATTRIBUTE)?;
    let (list, behind) = rest.split_once(' ').map_or((rest, None), |(list, behind)| (list, Some(behind)));
    let methods: Vec<&str> = list.split(',').collect();
    require(methods.iter().all(|m| is_token(m)), ATTRIBUTE)?;
    let (count, mode, ect) = behind.map_or(Ok((0, 0, 0)), parameters)?;
    require(methods.len() <= 8 && count <= 8, LIMITS)?;
    let known: Vec<u64> = methods.iter().filter_map(|m| number_in(&METHODS, m)).collect();
    let mut places = [0; 8];
    places[..known.len()].copy_from_slice(&known);
    Ok(Attribute { used: known.len() as u64, methods: places, mode, ect })
}

/// The words of a record: how many methods are used, eight places, the mode, the ect.
pub fn to_words(a: &Attribute) -> [u64; WORDS] {
    let mut words = [0; WORDS];
    words[0] = a.used;
    words[1..9].copy_from_slice(&a.methods);
    words[9] = a.mode;
    words[10] = a.ect;
    words
}

/// And back; 9 for another number of words, a mode or ect above 3, and a method in use that is none.
pub fn from_words(words: &[u64]) -> Result<Attribute, Refusal> {
    require(words.len() == WORDS, MALFORMED)?;
    let in_use = words[0].min(8) as usize;
    require(words[1..=in_use].iter().all(|m| (1..=3).contains(m)), MALFORMED)?;
    require(words[9] <= 3 && words[10] <= 3, MALFORMED)?;
    let mut methods = [0; 8];
    methods.copy_from_slice(&words[1..9]);
    Ok(Attribute { used: words[0], methods, mode: words[9], ect: words[10] })
}

/// The line of a record, mode before ect; 10 with no method or over 8.
pub fn line(a: &Attribute) -> Result<String, Refusal> {
    require((1..=8).contains(&a.used), LIMITS)?;
    let methods: Vec<&str> = a.methods[..a.used as usize].iter().map(|&m| METHODS[m as usize - 1]).collect();
    let mut parameters = Vec::new();
    if a.mode > 0 {
        parameters.push(format!("mode={}", MODES[a.mode as usize - 1]));
    }
    if a.ect > 0 {
        parameters.push(format!("ect={}", ECTS[a.ect as usize - 1]));
    }
    let space = if parameters.is_empty() { "" } else { " " };
    Ok(format!("{NAME} {}{space}{}", methods.join(","), parameters.join("; ")))
}

pub fn write(a: &Attribute, out: &mut [u8]) -> Written {
    put(line(a), out)
}

/// Our first method that the offer names, with our mode and our ect; nothing where there is none, or both sides only set or only read; 10 over 8 methods.
pub fn answer(offer: &Attribute, ours: &Attribute) -> Result<Option<Attribute>, Refusal> {
    require(offer.used <= 8 && ours.used <= 8, LIMITS)?;
    let reads_or_sets = |mode: u64| if mode == 0 { 3 } else { mode };
    // Bit 0 sets, bit 1 reads: one side has to set what the other reads.
    let (theirs, own) = (reads_or_sets(offer.mode), reads_or_sets(ours.mode));
    let goes = theirs & 1 > 0 && own & 2 > 0 || theirs & 2 > 0 && own & 1 > 0;
    let offered = &offer.methods[..offer.used as usize];
    let first = ours.methods[..ours.used as usize].iter().find(|m| offered.contains(m)).filter(|_| goes);
    Ok(first.map(|&m| Attribute { used: 1, methods: [m, 0, 0, 0, 0, 0, 0, 0], mode: ours.mode, ect: ours.ect }))
}

//! Texts made at random: forms in any order with values from everywhere, written in any way that is allowed, and damaged ones.
use crate::generate::Words;

const BLANKS: [&[u8]; 6] = [b" ", b" ", b" ", b"\t", b"\r", b" \t "];

fn blanks(words: &mut Words, out: &mut Vec<u8>, needed: bool) {
    if needed {
        out.extend(words.pick(&BLANKS));
    }
    while words.chance(12) {
        out.extend(words.pick(&BLANKS));
    }
}

fn decimal(words: &mut Words, n: u64) -> Vec<u8> {
    let zeros = if words.chance(20) { words.below(30) as usize } else { 0 };
    [vec![b'0'; zeros], n.to_string().into_bytes()].concat()
}

fn hex(x: f32) -> Vec<u8> {
    format!("{:08X}", x.to_bits()).into_bytes()
}

/// A number up to the limit of 512 or 730, mostly small, and now and then about the limit, 0 or far above.
fn size(words: &mut Words, most: u64) -> u64 {
    match words.below(40) {
        0 => words.pick(&[0, most, most + 1, 65_536, 65_537, 36_500, 36_501, u32::MAX as u64]),
        1 => 1 + words.below(most),
        2..=5 => 1 + words.below(120),
        _ => 1 + words.below(25),
    }
}

fn limit(words: &mut Words) -> u64 {
    match words.below(6) {
        0 => 0,
        1 => u32::MAX as u64 - words.below(3),
        _ => words.below(40),
    }
}

/// The words behind a name.
fn values(words: &mut Words, name: &str) -> Vec<Vec<u8>> {
    let float = |words: &mut Words, usual: f32| if words.chance(12) { words.float() } else { usual };
    match name {
        "parameters" if words.chance(5) => vec![b"all".to_vec(), hex(words.pick(&[0.5, 0.25, 1.0, 0.0, f32::NAN]))],
        "parameters" => {
            let mut all = words.parameters();
            if words.chance(25) {
                all[words.below(34) as usize] = words.pick(&[f32::NAN, f32::INFINITY, f32::NEG_INFINITY]);
            }
            all.into_iter().map(hex).collect()
        }
        "deck" | "span" | "seed" | "learn" | "review" => {
            let n = match name {
                "deck" => size(words, 512),
                "span" => size(words, 730),
                "seed" => words.next() >> words.below(64),
                _ => limit(words),
            };
            vec![decimal(words, n)]
        }
        "retention" => {
            let usual = words.between(0.7, 0.97);
            vec![hex(float(words, usual))]
        }
        "maxcost" => {
            let usual = words.pick(&[1800.0, 10.0, 80.0, 0.0, f32::INFINITY]);
            vec![hex(float(words, usual))]
        }
        "first" => std::array::from_fn::<f32, 4, _>(|_| words.between(0.0, 1.0)).map(|x| hex(float(words, x))).to_vec(),
        _ => {
            let usual = words.pick(&[8.0, 10.0, 0.5]);
            vec![b"all".to_vec(), hex(float(words, usual))]
        }
    }
}

fn form(words: &mut Words, out: &mut Vec<u8>, name: &str) {
    blanks(words, out, false);
    out.push(b'(');
    blanks(words, out, false);
    out.extend(name.as_bytes());
    for value in values(words, name) {
        blanks(words, out, true);
        out.extend(value);
    }
    blanks(words, out, false);
    out.push(b')');
    blanks(words, out, false);
}

const NAMES: [&str; 10] = ["parameters", "deck", "span", "seed", "learn", "review", "retention", "maxcost", "first", "cost"];

/// A text of forms: deck, span and parameters nearly always, the others as it comes.
pub fn written(words: &mut Words) -> Vec<u8> {
    let mut names: Vec<&str> =
        NAMES.into_iter().filter(|n| if NAMES[..3].contains(n) { !words.chance(30) } else { words.chance(2) }).collect();
    (1..names.len()).rev().for_each(|i| names.swap(i, words.below(i as u64 + 1) as usize));
    if words.chance(20) && !names.is_empty() {
        names.push(words.pick(&NAMES));
    }
    let mut out = Vec::new();
    for name in names {
        while words.chance(15) {
            blanks(words, &mut out, false);
            out.push(b'\n');
        }
        form(words, &mut out, name);
        out.extend(words.pick::<&[u8]>(&[b"\n", b"\n", b"\n", b"\r\n"]));
    }
    if words.chance(4) {
        out.pop();
    }
    out
}

/// Bytes that mean something in a text.
const TELLING: &[u8] = b"()() \t\r\n0123456789ABCDEFabcdefdeckspanallseedfirst\0\x0c\x7f\xef\xbb\xbf+-.,;";

/// One change of a text: a byte or a line taken out, put in, doubled or changed, two lines exchanged or joined, the rest cut off.
fn damage(words: &mut Words, text: &mut Vec<u8>) {
    let at = words.below(text.len() as u64 + 1) as usize;
    let byte = if words.chance(6) { words.next() as u8 } else { words.pick(TELLING) };
    match words.below(10) {
        0 | 1 => text.insert(at, byte),
        2 | 3 if at < text.len() => text[at] = byte,
        4 | 5 if at < text.len() => {
            text.remove(at);
        }
        6 => text.truncate(at),
        7 if at < text.len() => text[at] = text[at].to_ascii_lowercase(),
        8 => {
            let mut lines: Vec<Vec<u8>> = text.split(|&b| b == b'\n').map(<[u8]>::to_vec).collect();
            let (i, j) = (words.below(lines.len() as u64) as usize, words.below(lines.len() as u64) as usize);
            if words.chance(2) {
                lines.swap(i, j)
            } else {
                lines.insert(j, lines[i].clone())
            }
            *text = lines.join(&b'\n');
        }
        _ => {
            if let Some(i) = text.iter().position(|&b| b == b'\n' || b == b' ') {
                text.remove(i);
            }
        }
    }
}

/// A text about the longest: blanks or empty lines up to 32,768 bytes, one more, or one less.
fn filled(words: &mut Words, mut text: Vec<u8>) -> Vec<u8> {
    let len = 32_767 + words.below(3) as usize;
    let fill = words.pick(b" \n\r");
    let pad = vec![fill; len.saturating_sub(text.len())];
    if words.chance(2) {
        text.extend(pad);
        return text;
    }
    [pad, text].concat()
}

/// A text: whole, damaged once or more, bytes as they come, or about the longest.
pub fn varied(words: &mut Words) -> Vec<u8> {
    match words.below(20) {
        0 => (0..words.below(60)).map(|_| words.pick(TELLING)).collect(),
        1 => (0..words.below(200)).map(|_| words.next() as u8).collect(),
        2 if words.chance(8) => {
            let text = written(words);
            filled(words, text)
        }
        3..=9 => {
            let mut text = written(words);
            (0..1 + words.below(3)).for_each(|_| damage(words, &mut text));
            text
        }
        _ => written(words),
    }
}

//! The built program `forecast` beside the second reading of its texts over the Rust's run.
use crate::cases::USUAL;
use crate::generate::Words;
use crate::text::{WRONG, Wrong, answer, cheapest, is_small, read};
use crate::text_cases::varied;
use std::collections::BTreeMap;
use std::io::Write;
use std::process::{Command, Stdio};

/// What the program prints of a text. It must end by itself, whatever it is given.
fn printed(program: &str, text: &[u8]) -> String {
    let mut child = Command::new(program)
        .stdin(Stdio::piped())
        .stdout(Stdio::piped())
        .spawn()
        .unwrap_or_else(|e| panic!("{program} cannot be started: {e}"));
    // A text that is too long is not read to its end, so that the pipe may close.
    let _ = child.stdin.take().unwrap().write_all(text);
    let output = child.wait_with_output().unwrap();
    assert!(output.status.success(), "{program} ended with {} on {}", output.status, shown(text));
    String::from_utf8(output.stdout).unwrap()
}

fn shown(text: &[u8]) -> String {
    text.escape_ascii().to_string()
}

/// How an answer begins: its first word, and the number of a refusal.
fn kind(answer: &str) -> String {
    match answer.strip_prefix("(refused ") {
        Some(rest) => format!("refused {}", rest.split(' ').next().unwrap()),
        None => answer.trim_start_matches('(').split(' ').next().unwrap_or("").into(),
    }
}

/// Compares the program's answer to a text, and counts it.
fn compare(program: &str, text: &[u8], theirs: String, ends: &mut BTreeMap<String, u64>) -> String {
    let ours = printed(program, text);
    if ours != theirs {
        println!("DIFFERENCE in the text {}\nprogram {ours}reference {theirs}", shown(text));
        std::process::exit(1)
    }
    *ends.entry(kind(&ours)).or_default() += 1;
    ours
}

fn told(what: &str, n: u64, ends: &BTreeMap<String, u64>) {
    let ends: Vec<String> = ends.iter().map(|(k, n)| format!("{n} {k}")).collect();
    println!("texts: {n} {what} alike ({})", ends.join(", "));
}

/// Each wrong reading or printing must differ from what the program printed of some text.
fn planted(all: &[(Vec<u8>, String)]) {
    for wrong in WRONG {
        let differs = |(text, ours): &&(Vec<u8>, String)| {
            let same = read(text, wrong) == read(text, Wrong::Nothing) && ours.starts_with("(refused 11");
            !same && *ours != answer(text, wrong)
        };
        if all.iter().find(differs).is_none() {
            println!("texts: NOT SEEN: {wrong:?}");
            std::process::exit(1)
        }
    }
    println!("texts: {} wrong programs, each seen", WRONG.len());
}

/// Texts that show what chance seldom does.
pub fn telling() -> Vec<Vec<u8>> {
    let form = |w: [f32; 34]| format!("(parameters {})\n", w.map(|x| format!("{:08X}", x.to_bits())).join(" "));
    let with = |rest: &str| (form(USUAL) + rest).into_bytes();
    let mut no_curve = USUAL;
    no_curve[26] = 2.0;
    vec![
        b"(deck5)".to_vec(),
        b"(deck 007)".to_vec(),
        b"(deck\n5)".to_vec(),
        b"(deck 4294967296)".to_vec(),
        b"(seed 18446744073709551615)".to_vec(),
        b"(seed 18446744073709551616)".to_vec(),
        b"(deck 0)".to_vec(),
        b"\n (deck 5)\n x\n(span".to_vec(),
        b"(parameters all 7F800000)\n(deck 600)".to_vec(),
        b"(parameters all 3F000000)\n(deck 600)\n(span 800)".to_vec(),
        b"(parameters all 3F000000)\n(deck 5)\n(span 800)\n(cost all BF800000)".to_vec(),
        b"(parameters all 3F000000)\n(deck 5)\n(span 9)\n(cost all BF800000)".to_vec(),
        b"(parameters all 0DA24260)\n(deck 3)\n(span 4)".to_vec(),
        b"(parameters all C2C80000)\n(deck 5)\n(span 9)".to_vec(),
        with("(deck 512)\n(span 2)"),
        with("(deck 513)\n(span 2)"),
        with("(deck 3)\n(span 730)"),
        with("(deck 3)\n(span 731)"),
        with("(deck 512)\n(span 730)"),
        b"(parameters all 3F000000)\n(deck 512)\n(span 730)".to_vec(),
        with("(deck 5)"),
        with("(deck5)"),
        with("(deck 5)\r\n\r\n(span 2)\r\n"),
        with("(deck\n5)\n(span 2)"),
        with("(deck 007)\n(span 3)\n(cost all 7f7fffff)"),
        with("(deck 2)\n(span 2)\n(deck 2)"),
        with("\n\n(deck 2) (span 2)"),
        with("(deck 20)\n(span 5)\n(retention 7FC00000)"),
        with("(deck 20)\n(span 5)\n(maxcost 7F800000)\n(cost all 7F7FFFFF)"),
        (form(no_curve) + "(deck 1)\n(span 6)\n(review 0)").into_bytes(),
    ]
}

/// Texts of the longest size and above: blanks before a form, and a line that is none.
pub fn long() -> Vec<Vec<u8>> {
    let before = |byte: u8, len: usize| [vec![byte; len - 8], b"(deck 5)".to_vec()].concat();
    [32_768, 32_769, 40_000].into_iter().flat_map(|len| [before(b' ', len), before(b'x', len)]).collect()
}

/// The telling texts and n varied ones, and the wrong programs over them.
pub fn main(program: &str, n: u64, seed: u64) {
    let (mut words, mut ends, mut all) = (Words::new(seed ^ 0x7478), BTreeMap::new(), Vec::new());
    let mut texts = [telling(), long()].concat();
    for i in 0..n + texts.len() as u64 {
        let text = texts.pop().unwrap_or_else(|| varied(&mut words));
        let ours = compare(program, &text, answer(&text, Wrong::Nothing), &mut ends);
        if i < 4000 {
            all.push((text, ours));
        }
    }
    told(&format!("varied (seed {seed})"), n, &ends);
    planted(&all);
}

/// Calls f with every string of at most `len` of the bytes.
fn each_string(bytes: &[u8], len: usize, text: &mut Vec<u8>, f: &mut dyn FnMut(&[u8])) {
    f(text);
    if text.len() < len {
        for &b in bytes {
            text.push(b);
            each_string(bytes, len, text, f);
            text.pop();
        }
    }
}

/// All strings of at most two bytes, and all of at most five of eight telling bytes.
pub fn short(program: &str) {
    let every: Vec<u8> = (0..=255).collect();
    for (what, bytes, len) in [("of at most two bytes", &every[..], 2), ("of at most five of eight bytes", b"()\n\r d50", 5)] {
        let (mut n, mut ends) = (0, BTreeMap::new());
        each_string(bytes, len, &mut Vec::new(), &mut |text| {
            compare(program, text, answer(text, Wrong::Nothing), &mut ends);
            n += 1;
        });
        told(what, n, &ends);
    }
}

/// n texts whose search takes little time, through the program `cheapest`.
pub fn searched(program: &str, n: u64, seed: u64) {
    let (mut words, mut ends, mut done) = (Words::new(seed ^ 0x6368), BTreeMap::new(), 0);
    while done < n {
        let text = varied(&mut words);
        if is_small(&text) {
            compare(program, &text, cheapest(&text), &mut ends);
            done += 1;
        }
    }
    told(&format!("for a search (seed {seed})"), n, &ends);
}

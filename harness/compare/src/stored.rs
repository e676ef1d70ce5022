//! Writes every stored answer of the reference: stdin and stdout of the programs `replay` and `text_points`, and what `points`,
//! `run_points`, `search_points` and `cheapest` print of it.
use crate::{stored_leaves, stored_points, stored_runs, stored_texts};
use std::fmt::Write;

/// The lines that the program `replay` reads, and those that it must print.
#[derive(Default)]
pub struct Sample {
    calls: String,
    answers: String,
}

impl Sample {
    pub fn line(&mut self, function: u32, words: [u32; 4]) {
        let [a, b, c, d] = words;
        writeln!(self.calls, "{function:02X} {a:08X} {b:08X} {c:08X} {d:08X}").unwrap();
    }

    pub fn answer(&mut self, line: &str) {
        self.answers += line;
        self.answers.push('\n');
    }
}

fn write(path: &str, text: &str) {
    std::fs::write(path, text).unwrap_or_else(|e| panic!("{path} cannot be written: {e}"));
    println!("store: {path}, {} lines", text.lines().count());
}

pub fn main(crates: &str) {
    let mut s = Sample::default();
    stored_leaves::put(&mut s);
    let runs = stored_runs::put(&mut s);
    write(&format!("{crates}/replay/stdin"), &s.calls);
    write(&format!("{crates}/replay/stdout"), &s.answers);
    println!("store: {runs} whole runs in them");
    let points = format!("{crates}/points/stdout");
    let before = std::fs::read_to_string(&points).unwrap_or_else(|e| panic!("{points} cannot be read: {e}"));
    write(&points, &stored_points::points(&before));
    write(&format!("{crates}/run_points/stdout"), &stored_points::run_points());
    write(&format!("{crates}/search_points/stdout"), &stored_points::search_points());
    let (texts, answers) = stored_texts::put();
    let path = format!("{crates}/text_points/stdin");
    std::fs::write(&path, texts).unwrap_or_else(|e| panic!("{path} cannot be written: {e}"));
    write(&format!("{crates}/text_points/stdout"), &answers);
    let path = format!("{crates}/cheapest/stdin");
    let text = std::fs::read(&path).unwrap_or_else(|e| panic!("{path} cannot be read: {e}"));
    write(&format!("{crates}/cheapest/stdout"), &crate::text::cheapest(&text));
}

//! Texts whose answers the program `text_points` must print: every refusal that a text can meet, each form, the largest deck and
//! span, damaged texts, and some made at random.
use crate::generate::Words;
use crate::text::{Wrong, answer};
use crate::text_cases::varied;
use crate::texts::{long, telling};

const END: u8 = 0x1E;

fn texts() -> Vec<Vec<u8>> {
    let mut words = Words::new(0x7478);
    let by_chance = (0..200).map(|_| varied(&mut words)).filter(|t| t.len() < 2000 && !t.contains(&END) && !t.is_empty());
    let by_size = long().into_iter().take(3);
    telling().into_iter().chain(by_size).chain(by_chance.take(60)).collect()
}

/// The program's input, and what it must print.
pub fn put() -> (Vec<u8>, String) {
    let (mut input, mut output) = (Vec::new(), String::new());
    for text in texts() {
        output += "text\n";
        output += &answer(&text, Wrong::Nothing);
        input.extend(text);
        input.push(END);
    }
    (input, output)
}

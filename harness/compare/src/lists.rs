//! Sequences of operations on the queue and on the interval table, each list compared after each operation.
use crate::floats::bits;
use crate::generate::Words;
use crate::port;
use oracle::ours::model::model_v7::probe as model;
use oracle::ours::simulation::probe;

/// The key that the port packs of a priority of the Rust.
pub fn key(day: i32, new: bool, priority: i32) -> u64 {
    ((day as u64) << 33) + (u64::from(new) << 32) + (priority as i64 + (1 << 31)) as u64
}

pub fn keyed(rows: &[(i32, bool, i32, u32)]) -> Vec<[u64; 2]> {
    rows.iter().map(|&(day, new, priority, card)| [key(day, new, priority), card as u64]).collect()
}

fn fail(what: &str, log: &[String], ours: &dyn std::fmt::Debug, theirs: &dyn std::fmt::Debug) -> ! {
    println!("DIFFERENCE in {what} after");
    log.iter().for_each(|line| println!("  {line}"));
    println!("  port {ours:?}\n  reference {theirs:?}");
    std::process::exit(1)
}

/// One queue of up to `cards` cards: pushes first, as the run has them, then changes of the front and pops.
fn queue(words: &mut Words, cards: u32) -> u64 {
    let days = 1 + words.below(6);
    let mut rows = vec![[7; 2]; cards as usize + 2];
    let mut theirs = probe::Queue::new(cards as usize);
    let (mut len, mut pushed, mut compared) = (0, 0, 0);
    let mut log = Vec::new();
    let priority = |words: &mut Words| {
        let difficulty = if words.chance(3) { words.float() } else { 1.0 + words.below(4) as f32 };
        (words.below(days) as i32, words.chance(2), difficulty)
    };
    for _ in 0..4 * cards {
        let (day, new, difficulty) = priority(words);
        let (p, k) = (probe::priority(difficulty), port::drill_card_priority(day as u32, new, difficulty));
        if pushed < cards && (len == 0 || words.chance(2)) {
            log.push(format!("push card {pushed}, key {k:X}"));
            len = port::push(&mut rows, len, pushed, k);
            theirs.push(pushed as usize, day, new, p);
            pushed += 1;
        } else if len > 0 && words.chance(3) {
            log.push("pop".to_string());
            len = port::pop(&mut rows, len);
            theirs.pop();
        } else if let Some(card) = theirs.peek() {
            log.push(format!("change the front to key {k:X}"));
            if port::peek_index(&rows, len) as usize != card {
                fail("peek_index", &log, &port::peek_index(&rows, len), &card);
            }
            port::change_front(&mut rows, len, k);
            theirs.change(card, day, new, p);
        }
        let expected = keyed(&theirs.rows());
        if rows[..len as usize] != expected[..] || rows[cards as usize..] != [[7; 2]; 2] {
            fail("the queue", &log, &rows, &expected);
        }
        compared += 1;
    }
    compared
}

/// One table: intervals scheduled under one list of parameters, with refusals once it is full.
fn table(words: &mut Words, places: usize) -> u64 {
    let flat = words.chance(3);
    let w = if flat { words.flat_parameters() } else { words.parameters() };
    let near = words.scaled(1e-4, 1.0);
    let far = model::forgetting_curve(&w, words.scaled(3000.0, 36000.0), near);
    let most = if flat { 36500.0 } else { words.pick(&[1.0, 2.9999998, 30.0, 36500.0]) };
    let mut keys = vec![[9; 2]; places];
    let mut intervals = vec![f32::NAN; places];
    port::clear(&mut intervals);
    let mut theirs = probe::Table::new();
    let mut log = vec![format!("parameters {w:?}, most {most}")];
    let spread = words.pick(&[1.01, 1.5, 1e6]);
    let steps = 8 + 3 * places as u64;
    for _ in 0..steps {
        let (s, r) = if flat {
            (near * words.between(0.9998, 1.0002), far)
        } else {
            let s = if words.chance(10) { words.stability() } else { words.scaled(5.0, 5.0 * spread) };
            (s, if words.chance(10) { words.retention() } else { words.pick(&[0.9, 0.9002, 0.85]) })
        };
        log.push(format!("schedule stability {:08X}, retention {:08X}", s.to_bits(), r.to_bits()));
        let before = theirs.rows();
        let ours = port::scheduled_interval(&w, s, r, most, &mut keys, &mut intervals);
        let mut expected = theirs.scheduled(&w, s, r, most);
        let after = theirs.rows();
        if after.len() > places {
            let added = after.iter().find(|row| !before.iter().any(|b| b.0 == row.0)).unwrap();
            theirs.remove(added.0);
            expected = f32::NAN;
        }
        if bits(ours) != bits(expected) {
            fail("scheduled_interval", &log, &ours, &expected);
        }
        let held = held(&keys, &intervals);
        if held != entries(&theirs.rows()) {
            fail("the interval table", &log, &held, &theirs.rows());
        }
    }
    steps
}

/// What a table holds, in the order of the keys; a key that is held twice is there twice.
pub fn held(keys: &[[u32; 2]], intervals: &[f32]) -> Vec<([u32; 2], u32)> {
    sorted(keys.iter().zip(intervals).filter(|(_, v)| **v >= 1.0).map(|(k, v)| (*k, v.to_bits())).collect())
}

/// What the Rust's table holds, in the same order.
pub fn entries(rows: &[([i32; 2], f32)]) -> Vec<([u32; 2], u32)> {
    sorted(rows.iter().map(|(k, v)| (k.map(|b| b as u32), v.to_bits())).collect())
}

fn sorted(mut rows: Vec<([u32; 2], u32)>) -> Vec<([u32; 2], u32)> {
    rows.sort();
    rows
}

pub fn main(scale: u64, seed: u64) -> u64 {
    let mut words = Words::new(seed ^ 0x51);
    let mut total = 0;
    let mut changed = 0;
    for _ in 0..100 * scale {
        let most = 1 + words.below(40);
        let cards = 1 + words.below(most) as u32;
        changed += queue(&mut words, cards);
    }
    println!("{:<34} {changed:>9} alike", "queue operations");
    total += changed;
    let mut scheduled = 0;
    for _ in 0..30 * scale {
        let places = words.below(24) as usize;
        scheduled += table(&mut words, places);
    }
    println!("{:<34} {scheduled:>9} alike", "interval table operations");
    total + scheduled
}

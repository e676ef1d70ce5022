//! The reference's answers to calls of single functions, for the program `replay`: a line of its `stdin` for each call.
use crate::floats::pattern;
use crate::generate::{EDGES, Words};
use crate::stored::Sample;
use oracle::native;
use oracle::ours::model::model_v7::probe as model;
use oracle::ours::simulation::probe;

impl Sample {
    fn put(&mut self, function: u32, words: [u32; 4], answer: u32) {
        self.line(function, words);
        self.answer(&format!("{answer:08x}"));
    }

    fn float(&mut self, function: u32, words: [f32; 4], answer: f32) {
        self.put(function, words.map(pattern), pattern(answer));
    }
}

/// exp, ln and powf where their rules leave one answer.
fn elementary(s: &mut Sample) {
    let none = 0.0;
    for x in EDGES.map(f32::from_bits) {
        if x.is_nan() || x >= f32::from_bits(0x42B1_7218) || x <= f32::from_bits(0xC2AE_AC50) || x == 0.0 {
            s.float(1, [x, none, none, none], if x <= f32::from_bits(0xC2AE_AC50) { 0.0 } else { x.exp() });
        }
        if x.is_nan() || x <= 0.0 || x == 1.0 || x == f32::INFINITY {
            s.float(2, [x, none, none, none], x.ln());
        }
        for y in [0.0, -0.0, 1.0, -1.0, 3.0, 0.5, -2.0, f32::INFINITY, f32::NEG_INFINITY, f32::NAN] {
            let special = x == 0.0 || x == 1.0 || !x.is_finite() || y == 0.0 || !y.is_finite();
            if x < 0.0 && y != 0.0 {
                s.float(3, [x, y, none, none], f32::NAN);
            } else if special {
                s.float(3, [x, y, none, none], x.powf(y));
            }
        }
    }
}

fn numbers(s: &mut Sample, words: &mut Words) {
    for _ in 0..30 {
        let (x, y, z) = (words.float(), words.float(), words.float());
        s.float(4, [x, 0.0, 0.0, 0.0], x.abs());
        if !(x == 0.0 && y == 0.0) {
            s.float(5, [x, y, 0.0, 0.0], x.max(y));
            s.float(6, [x, y, 0.0, 0.0], x.min(y));
        }
        if y <= z {
            s.float(7, [x, y, z, 0.0], x.clamp(y, z));
        }
        s.float(8, [x, 0.0, 0.0, 0.0], x.round());
        s.float(9, [x, y, z, 0.0], x.mul_add(y, z));
        s.float(9, [x, y, -(x * y), 0.0], x.mul_add(y, -(x * y)));
        s.put(10, [pattern(x), 0, 0, 0], x as u32);
        let state = words.next();
        s.put(11, [(state >> 32) as u32, state as u32, 0, 0], (native::mix(native::advance(state)) >> 32) as u32);
        let row = [words.between(0.0, 1.0), words.between(0.0, 0.5), words.pick(&[0.0, 0.25])];
        let word = words.next() as u32;
        s.put(12, [pattern(row[0]), pattern(row[1]), pattern(row[2]), word], native::rating(&row, word) as u32);
        let chance = words.retention();
        s.put(13, [pattern(chance), word, 0, 0], u32::from(native::recalled(chance, word)));
        let (stability, difficulty) = (words.stability(), words.difficulty());
        s.put(14, [pattern(stability), 0, 0, 0], probe::stability_bucket(stability) as u32);
        s.put(15, [pattern(chance), 0, 0, 0], probe::retention_bucket(chance) as u32);
        let (day, new) = (words.below(1000) as u32, words.below(2) as u32);
        let key = crate::lists::key(day as i32, new == 1, probe::priority(difficulty));
        s.put(16, [pattern(difficulty), day, new, 0], key as u32);
        s.put(17, [pattern(difficulty), day, new, 0], (key >> 32) as u32);
    }
}

fn memory(s: &mut Sample, words: &mut Words, w: &[f32]) {
    for _ in 0..6 {
        let rating = 1 + words.below(4) as u32;
        let (x, r, d, t) = (words.stability(), words.retention(), words.difficulty(), words.time());
        let fast = words.stability();
        let state = model::state(x, d, fast);
        let most = words.pick(&[1.0, 30.0, 36500.0]);
        let held = words.scaled(1.0, 300.0).round();
        s.put(20, [rating, 0, 0, 0], pattern(probe::init_stability(w, rating as usize)));
        s.put(21, [rating, 0, 0, 0], pattern(model::init_difficulty(w, rating as usize)));
        s.put(22, [pattern(d), pattern(r), 0, rating], pattern(model::next_difficulty(w, d, rating as usize, r)));
        s.put(23, [pattern(x), pattern(r), pattern(d), rating], pattern(model::stability_after_success(w, x, r, d, rating as usize)));
        s.put(24, [pattern(x), pattern(r), pattern(d), 0], pattern(model::stability_after_failure(w, x, r, d)));
        s.put(25, [pattern(x), pattern(r), pattern(d), rating], pattern(model::stability_short_term(w, x, r, d, rating as usize)));
        s.float(26, [t, x, 0.0, 0.0], model::forgetting_curve(w, t, x));
        s.float(27, [t, x, d, fast], model::forgetting_curve_for_state(w, t, state));
        s.float(28, [t, x, d, fast], model::forgetting_curve_and_derivative(w, t, state).0);
        s.float(29, [t, x, d, fast], model::forgetting_curve_and_derivative(w, t, state).1);
        s.float(30, [r, x, d, fast], model::next_interval_bisection(w, state, r));
        s.float(31, [r, x, d, fast], model::next_interval_for_state(w, state, r));
        s.float(32, [x, r, 0.0, 0.0], model::next_interval(w, x, r));
        s.float(33, [x, r, most, 0.0], probe::Table::new().scheduled(w, x, r, most));
        s.put(34, [x, r, held, most].map(pattern), u32::from(probe::certifies(w, x, r, held, most)));
    }
}

/// Pushes, changes of the front and pops; the answer is the first card.
fn queue(s: &mut Sample, words: &mut Words) {
    let mut q = probe::Queue::new(16);
    let mut next = 0;
    for _ in 0..60 {
        let (day, new, difficulty) = (words.below(4) as u32, words.below(2) as u32, 1.0 + words.below(4) as f32);
        let p = probe::priority(difficulty);
        let words4 = [next, day, new, pattern(difficulty)];
        let function = match q.peek() {
            Some(card) if next == 16 || words.chance(2) => {
                if words.chance(3) {
                    q.pop();
                    52
                } else {
                    q.change(card, day as i32, new == 1, p);
                    51
                }
            }
            _ if next < 16 => {
                q.push(next as usize, day as i32, new == 1, p);
                next += 1;
                50
            }
            _ => return,
        };
        s.put(function, words4, q.peek().map_or(u32::MAX, |c| c as u32));
    }
}

/// The program's table has eight places: no more keys are asked for.
fn table(s: &mut Sample, words: &mut Words, w: &[f32]) {
    s.put(61, [0; 4], 0);
    let mut t = probe::Table::new();
    for _ in 0..30 {
        let (x, r) = (words.pick(&[3.0, 8.0, 30.0]) * words.pick(&[1.0, 1.0003, 1.0004]), words.pick(&[0.9, 0.85]));
        if t.rows().len() < 7 {
            let answer = t.scheduled(w, x, r, 36500.0);
            s.float(60, [x, r, 36500.0, 0.0], answer);
        }
    }
}

pub fn put(s: &mut Sample) {
    let mut words = Words::new(2026);
    elementary(s);
    numbers(s, &mut words);
    for list in 0..8 {
        let w = if list == 0 { crate::cases::USUAL.to_vec() } else { words.parameters() };
        for (i, x) in w.iter().enumerate() {
            s.line(0, [i as u32, pattern(*x), 0, 0]);
        }
        memory(s, &mut words, &w);
        table(s, &mut words, &w);
    }
    queue(s, &mut words);
}

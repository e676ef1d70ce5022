//! Crate draws beside the draws in Rust.
use super::{Leaf, alike, f, leaf};
use crate::generate::Words;
use crate::port;
use oracle::native;

fn weights(words: &mut Words) -> Vec<u64> {
    let mut v: Vec<f32> = (0..3 + words.below(2)).map(|_| words.between(0.0, 1.0)).collect();
    match words.below(6) {
        0 => v.iter_mut().for_each(|x| *x = if words.chance(2) { 0.0 } else { 1.0 }),
        1 => v.iter_mut().for_each(|x| *x = words.finite().abs()),
        2 => v.iter_mut().for_each(|x| *x = f32::from_bits(words.below(4) as u32 * 0x40_0000)),
        _ => {}
    }
    let word = match words.below(4) {
        0 => words.pick(&[0, 255, 256, 0x8000_0000, 0x7FFF_FFFF, u32::MAX, 0xFFFF_FF00]) as u64,
        _ => words.next() >> 32,
    };
    let mut w = vec![word];
    w.extend(v.iter().map(|x| x.to_bits() as u64));
    w
}

/// A chance and a word, often just met.
fn chances(words: &mut Words) -> Vec<u64> {
    let word = words.next() >> 32;
    let chance = if words.chance(2) { words.retention() } else { native::unit(word as u32) };
    vec![chance.to_bits() as u64 + words.below(2), word]
}

/// Against the draws in Rust.
pub fn of_draws() -> Vec<Leaf> {
    vec![
        leaf("next: output", 5000, |w| vec![w.next()], |v| (port::drill_next(&mut v[0].clone()), native::mix(native::advance(v[0])))),
        leaf(
            "next: state",
            5000,
            |w| vec![w.next()],
            |v| {
                let mut state = v[0];
                port::drill_next(&mut state);
                (state, native::advance(v[0]))
            },
        ),
        leaf("word", 2000, |w| vec![w.next()], |v| (port::drill_word(v[0]) as u64, v[0] >> 32)),
        leaf("rating", 8000, weights, |v| {
            let w: Vec<f32> = v[1..].iter().map(|&x| f(x)).collect();
            (port::rating(&w, v[0] as u32) as u64, native::rating(&w, v[0] as u32) as u64)
        }),
        leaf("recalled", 4000, chances, |v| alike(port::drill_recalled(f(v[0]), v[1] as u32), native::recalled(f(v[0]), v[1] as u32))),
    ]
}

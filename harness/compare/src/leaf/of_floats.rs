//! Crate float32 beside rustc's own functions.
use super::{Leaf, alike, bits, equal, f, floats, leaf, same};
use crate::generate::Words;
use crate::port;

/// Both zeros are one: which of them `max` and `min` give is not fixed in Rust.
fn unsigned(x: f32) -> u64 {
    if x == 0.0 { 0 } else { bits(x) }
}

/// The float nearest to m * 2^(e - 1074): m is brought to 53 digits, the last of them odd where others were dropped.
fn nearest(negative: bool, m: u64, e: u32) -> f32 {
    let drop = 11u32.saturating_sub(m.leading_zeros());
    let kept = (m >> drop) | u64::from(m & ((1 << drop) - 1) != 0);
    let mut x = kept as f64;
    let mut left = drop as i64 + e as i64 - 1074;
    // outside this no float is left: the f64 steps below stay exact within it
    left = left.clamp(-400, 400);
    while left > 0 && x.is_finite() {
        let step = left.min(200);
        x *= 2f64.powi(step as i32);
        left -= step;
    }
    if left < 0 {
        // exact: kept has at most 53 digits and the result is at least 2^-400
        x *= 2f64.powi((left / 2) as i32);
        x *= 2f64.powi((left - left / 2) as i32);
    }
    let x = x as f32;
    if negative { -x } else { x }
}

fn ends(words: &mut Words) -> Vec<u64> {
    let (x, a, b) = (words.float(), words.float(), words.float());
    // Rust's clamp panics at ends that are NaN or the wrong way round
    let (low, high) = if a <= b {
        (a, b)
    } else if b < a {
        (b, a)
    } else {
        (1.0, 10.0)
    };
    [x, low, high].map(|x| x.to_bits() as u64).to_vec()
}

/// Numbers whose product and sum meet: near cancellations, ties and ends of the format.
fn fused(words: &mut Words) -> Vec<u64> {
    let (x, y) = (words.float(), words.float());
    let z = match words.below(4) {
        0 => words.float(),
        1 => -(x * y),
        2 => f32::from_bits((x * y).to_bits() ^ (words.below(8) as u32)),
        _ => x * y * words.pick(&[1e-7, -1e-7, 5.9604645e-8, 3e-8, -3e-8, 0.5, 1e-14]),
    };
    [x, y, z].map(|x| x.to_bits() as u64).to_vec()
}

fn packed(words: &mut Words) -> Vec<u64> {
    let m = match words.below(4) {
        0 => words.below(1 << 26),
        1 => (words.below(1 << 24) << 1 | 1) << words.below(40),
        _ => words.next() >> words.below(64),
    };
    vec![words.below(2), m, words.below(1300)]
}

/// Against rustc's own functions.
pub fn of_floats() -> Vec<Leaf> {
    vec![
        leaf("is_finite", 4000, |w| floats(1, w), |v| alike(port::drill_is_finite(f(v[0])), f(v[0]).is_finite())),
        leaf("abs", 4000, |w| floats(1, w), |v| same(port::drill_abs(f(v[0])), f(v[0]).abs())),
        leaf("max", 6000, |w| floats(2, w), |v| (unsigned(port::drill_max(f(v[0]), f(v[1]))), unsigned(f(v[0]).max(f(v[1]))))),
        leaf("min", 6000, |w| floats(2, w), |v| (unsigned(port::drill_min(f(v[0]), f(v[1]))), unsigned(f(v[0]).min(f(v[1]))))),
        leaf("clamp", 6000, ends, |v| same(port::drill_clamp(f(v[0]), f(v[1]), f(v[2])), f(v[0]).clamp(f(v[1]), f(v[2])))),
        leaf("to_i32", 8000, |w| floats(1, w), |v| equal(port::drill_to_i32(f(v[0])) as u32, f(v[0]) as i32 as u32)),
        leaf("to_u32", 8000, |w| floats(1, w), |v| equal(port::drill_to_u32(f(v[0])), f(v[0]) as u32)),
        leaf("round", 10000, |w| floats(1, w), |v| same(port::drill_round(f(v[0])), f(v[0]).round())),
        leaf("mul_add", 20000, fused, |v| same(port::drill_mul_add(f(v[0]), f(v[1]), f(v[2])), f(v[0]).mul_add(f(v[1]), f(v[2])))),
        leaf("pack", 5000, packed, |v| same(port::drill_pack(v[0] == 1, v[1], v[2] as u32), nearest(v[0] == 1, v[1], v[2] as u32))),
    ]
}

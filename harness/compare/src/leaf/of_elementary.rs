//! Crate elementary beside the bounds of its rules, with f64 as the exact value.
use super::{Answers, Leaf, bits, f, leaf};
use crate::generate::{EDGES, Words};
use crate::port;

/// Whether r is within `steps` spacings of the exact value, or within `slack`.
fn near(r: f32, exact: f64, steps: f64, slack: f64) -> bool {
    let e = (exact.abs() as f32).to_bits();
    let low = f32::from_bits(if f32::from_bits(e) as f64 > exact.abs() && e > 0 { e - 1 } else { e });
    let step = f32::from_bits(low.to_bits() + 1) as f64 - low as f64;
    (r as f64 - exact).abs() <= (steps * step).max(slack) * (1.0 + 1e-7)
}

fn within(test: bool) -> Answers {
    (u64::from(test), 1)
}

/// exp by its rule: 1 step; infinite and 0 from the two bounds on. `r` is what was answered.
fn exp_rule(x: f32, r: f32) -> Answers {
    if x.is_nan() {
        (bits(r), bits(f32::NAN))
    } else if x >= f32::from_bits(0x42B1_7218) {
        (bits(r), bits(f32::INFINITY))
    } else if x <= f32::from_bits(0xC2AE_AC50) {
        (bits(r), 0)
    } else {
        within(near(r, (x as f64).exp(), 1.0, 0.0))
    }
}

fn ln_rule(x: f32, r: f32) -> Answers {
    if x.is_nan() || x < 0.0 {
        (bits(r), bits(f32::NAN))
    } else if x == 0.0 || x == f32::INFINITY || x == 1.0 {
        (bits(r), bits(x.ln()))
    } else {
        within(near(r, (x as f64).ln(), 1.0, 2f64.powi(-40)))
    }
}

fn powf_rule(x: f32, y: f32, r: f32) -> Answers {
    if y == 0.0 || x == 1.0 {
        (bits(r), bits(1.0))
    } else if x < 0.0 {
        (bits(r), bits(f32::NAN))
    } else if x == 0.0 || !x.is_finite() || !y.is_finite() {
        (bits(r), bits(x.powf(y)))
    } else {
        let exact = (x as f64).powf(y as f64);
        if exact < 2f64.powi(-127) {
            (bits(r), 0)
        } else if exact >= 2f64.powi(129) {
            (bits(r), bits(f32::INFINITY))
        } else {
            within(near(r, exact, 2.0, 0.0))
        }
    }
}

/// Over the range of exp's bound, evenly and near its ends, and beyond.
fn exponent(words: &mut Words) -> Vec<u64> {
    let x = match words.below(6) {
        0 => words.float(),
        1 | 2 => words.between(-87.4, 88.8),
        3 => f32::from_bits(words.pick(&EDGES)),
        4 => f32::from_bits(words.pick(&[0x42B1_7218, 0xC2AE_AC50]) + words.below(64) as u32 - 32),
        _ => words.between(-16.0, 12.0),
    };
    vec![x.to_bits() as u64]
}

fn positive(words: &mut Words) -> Vec<u64> {
    let x = match words.below(4) {
        0 => words.float(),
        1 => f32::from_bits(words.below(0x7F80_0000) as u32),
        _ => words.scaled(1e-5, 1e5),
    };
    vec![x.to_bits() as u64]
}

/// A base and an exponent whose exact power is 2^log2, or as near as floats come.
fn of_power(words: &mut Words, log2: f64) -> (f32, f32) {
    if words.chance(2) {
        let y = words.pick(&[1.0, -1.0]) * words.scaled(1e-3, 128.0).min(128.0);
        ((log2 / y as f64).exp2() as f32, y)
    } else {
        let x = f32::from_bits(1 + words.below(0x7F7F_FFFF) as u32);
        (x, (log2 / (x as f64).log2()) as f32)
    }
}

/// Arguments of which powf's rule says something, over the whole range of its bound; elsewhere the recipe alone fixes the value.
fn power_arguments(words: &mut Words) -> Vec<u64> {
    loop {
        let (x, y) = match words.below(6) {
            0 => (words.float(), words.float()),
            1 => (words.scaled(1e-30, 1e30), words.between(-5.0, 5.0) * words.pick(&[1.0, 1.0, 10.0, 25.0])),
            2 => {
                let near = words.pick(&[-126.0, 127.0, -127.0, 129.0]) + words.between(-0.01, 0.01) as f64;
                of_power(words, near)
            }
            _ => {
                let log2 = words.between(-126.0, 127.0) as f64;
                of_power(words, log2)
            }
        };
        let exact = (x as f64).powf(y as f64);
        let ruled = exact < 2f64.powi(-127) || exact >= 2f64.powi(129) || (2f64.powi(-126)..=2f64.powi(127)).contains(&exact);
        if !(x > 0.0 && x.is_finite() && y.is_finite()) || x == 1.0 || (y.abs() <= 128.0 && ruled) {
            return vec![x.to_bits() as u64, y.to_bits() as u64];
        }
    }
}

pub fn of_elementary() -> Vec<Leaf> {
    vec![
        leaf("exp by its bound", 8000, exponent, |v| exp_rule(f(v[0]), port::drill_exp(f(v[0])))),
        leaf("ln by its bound", 8000, positive, |v| ln_rule(f(v[0]), port::drill_ln(f(v[0])))),
        leaf("powf by its bound", 16000, power_arguments, |v| powf_rule(f(v[0]), f(v[1]), port::drill_powf(f(v[0]), f(v[1])))),
    ]
}

/// So many spacings further, where the answer has some size.
fn off(r: f32, steps: u32, test: bool) -> f32 {
    if test && r.is_normal() { f32::from_bits(r.to_bits() + steps) } else { r }
}

/// The same over functions that are wrong in a part of their range only: each must be seen.
pub fn wrong() -> Vec<Leaf> {
    vec![
        leaf("exp 2 steps off above 88", 8000, exponent, |v| exp_rule(f(v[0]), off(port::drill_exp(f(v[0])), 2, f(v[0]) > 88.0))),
        leaf("exp 2 steps off below -87", 8000, exponent, |v| exp_rule(f(v[0]), off(port::drill_exp(f(v[0])), 2, f(v[0]) < -87.0))),
        leaf("exp finite from its upper end on", 8000, exponent, |v| {
            let r = port::drill_exp(f(v[0]));
            exp_rule(f(v[0]), if v[0] == 0x42B1_7218 { f32::MAX } else { r })
        }),
        leaf("ln 2 steps off below 2^-126", 8000, positive, |v| ln_rule(f(v[0]), off(port::drill_ln(f(v[0])), 2, f(v[0]) < 1e-38))),
        leaf("powf 3 steps off from 2^126", 16000, power_arguments, |v| {
            let r = port::drill_powf(f(v[0]), f(v[1]));
            powf_rule(f(v[0]), f(v[1]), off(r, 3, r > 8.6e37))
        }),
        leaf("powf 3 steps off to 2^-125", 16000, power_arguments, |v| {
            let r = port::drill_powf(f(v[0]), f(v[1]));
            powf_rule(f(v[0]), f(v[1]), off(r, 3, r < 2.3e-38))
        }),
        leaf("powf 3 steps off for |y| from 100", 16000, power_arguments, |v| {
            let r = port::drill_powf(f(v[0]), f(v[1]));
            powf_rule(f(v[0]), f(v[1]), off(r, 3, f(v[1]).abs() > 100.0))
        }),
        leaf("powf 3 steps off for a base below 2^-126", 16000, power_arguments, |v| {
            let r = port::drill_powf(f(v[0]), f(v[1]));
            powf_rule(f(v[0]), f(v[1]), off(r, 3, f(v[0]) < 1e-38))
        }),
    ]
}

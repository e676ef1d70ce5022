//! Keys of the interval table (crate intervals) and of the queue (crate queue), and the certificate.
use super::{Leaf, alike, equal, f, leaf, list, longest, with_parameters};
use crate::generate::Words;
use crate::port;
use oracle::ours::model::model_v7::probe as model;
use oracle::ours::simulation::probe;

fn interval(words: &mut Words) -> f32 {
    match words.below(6) {
        0 => words.float(),
        1 => words.scaled(0.5, 36500.0),
        _ => words.scaled(1.0, 36500.0).round(),
    }
}

fn certificate(words: &mut Words) -> Vec<u64> {
    with_parameters(
        words,
        |w| {
            let (s, r) = (w.stability(), w.retention());
            // often about the stability, where the answer turns
            let i = if w.chance(2) && s.is_finite() { (s * w.between(0.5, 1.5)).round() } else { interval(w) };
            vec![s, r, i, longest(w)]
        },
        false,
    )
}

/// A certificate whose retention is the curve's at one of the three times that are looked at.
fn met(words: &mut Words) -> Vec<u64> {
    let mut v = certificate(words);
    let i = f(v[36]);
    let t = words.pick(&[i - 0.5 + 0.05, i + 0.5 - 0.05, 1.5 - 0.05]);
    v[35] = model::forgetting_curve(&list(&v), t, f(v[34])).to_bits() as u64;
    v
}

fn priority(words: &mut Words) -> Vec<u64> {
    let far = words.next() >> 33;
    let near = words.below(400);
    vec![words.pick(&[near, far, 0]), words.below(2), words.difficulty().to_bits() as u64]
}

/// Keys of the interval table and of the queue, and the certificate.
pub fn of_keys() -> Vec<Leaf> {
    vec![
        leaf(
            "bucket_index",
            4000,
            |w| vec![w.float().to_bits() as u64, w.pick(&[0x3A83126F, 0x3A03126F])],
            |v| equal(port::drill_bucket_index(f(v[0]), f(v[1])), probe::bucket(f(v[0]), f(v[1])) as u32),
        ),
        leaf(
            "stability_bucket",
            1000,
            |w| vec![w.stability().to_bits() as u64],
            |v| equal(port::drill_stability_bucket(f(v[0])), probe::stability_bucket(f(v[0])) as u32),
        ),
        leaf(
            "retention_bucket",
            2000,
            |w| vec![w.retention().to_bits() as u64],
            |v| equal(port::drill_retention_bucket(f(v[0])), probe::retention_bucket(f(v[0])) as u32),
        ),
        leaf("certifies_rounded_interval", 3000, certificate, |v| {
            let (s, r, interval, most) = (f(v[34]), f(v[35]), f(v[36]), f(v[37]));
            alike(port::certifies(&list(v), s, r, interval, most), probe::certifies(&list(v), s, r, interval, most))
        }),
        leaf("certifies_rounded_interval, met", 3000, met, |v| {
            let (s, r, interval, most) = (f(v[34]), f(v[35]), f(v[36]), f(v[37]));
            alike(port::certifies(&list(v), s, r, interval, most), probe::certifies(&list(v), s, r, interval, most))
        }),
        leaf("card_priority", 4000, priority, |v| {
            let theirs = crate::lists::key(v[0] as i32, v[1] == 1, probe::priority(f(v[2])));
            (port::drill_card_priority(v[0] as u32, v[1] == 1, f(v[2])), theirs)
        }),
    ]
}

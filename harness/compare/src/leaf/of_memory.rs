//! Crate model beside the patched Rust.
use super::{Leaf, bits, f, leaf, list, longest, same, with_parameters};
use crate::generate::Words;
use crate::port;
use oracle::ours::model::model_v7::probe as model;
use oracle::ours::simulation::probe;

fn pair(a: (f32, f32)) -> u64 {
    bits(a.0) << 32 | bits(a.1)
}

/// Three numbers of a memory state.
fn state(words: &mut Words) -> Vec<f32> {
    let s = words.stability();
    vec![s, words.difficulty(), if words.chance(2) { s } else { words.stability() }]
}

fn remembered(words: &mut Words) -> Vec<u64> {
    with_parameters(words, |w| vec![w.stability(), w.retention(), w.difficulty()], true)
}

fn with_state(words: &mut Words, more: fn(&mut Words) -> f32) -> Vec<u64> {
    with_parameters(
        words,
        |w| {
            let mut v = state(w);
            v.push(more(w));
            v
        },
        false,
    )
}

fn timed(words: &mut Words) -> Vec<u64> {
    with_state(words, Words::time)
}

fn wanted(words: &mut Words) -> Vec<u64> {
    with_state(words, Words::retention)
}

/// Against the patched Rust.
pub fn of_memory() -> Vec<Leaf> {
    vec![
        leaf(
            "init_stability",
            500,
            |w| with_parameters(w, |_| vec![], true),
            |v| same(port::init_stability(&list(v), v[34] as u32), probe::init_stability(&list(v), v[34] as usize)),
        ),
        leaf(
            "init_difficulty",
            1000,
            |w| with_parameters(w, |_| vec![], true),
            |v| same(port::init_difficulty(&list(v), v[34] as u32), model::init_difficulty(&list(v), v[34] as usize)),
        ),
        leaf(
            "next_difficulty",
            2000,
            |w| with_parameters(w, |w| vec![w.difficulty(), w.retention()], true),
            |v| {
                let (d, r) = (f(v[34]), f(v[35]));
                same(port::next_difficulty(&list(v), d, v[36] as u32, r), model::next_difficulty(&list(v), d, v[36] as usize, r))
            },
        ),
        leaf("stability_after_success", 2000, remembered, |v| {
            let (s, r, d) = (f(v[34]), f(v[35]), f(v[36]));
            same(
                port::stability_after_success(&list(v), s, r, d, v[37] as u32),
                model::stability_after_success(&list(v), s, r, d, v[37] as usize),
            )
        }),
        leaf("stability_after_failure", 1500, remembered, |v| {
            let (s, r, d) = (f(v[34]), f(v[35]), f(v[36]));
            same(port::stability_after_failure(&list(v), s, r, d), model::stability_after_failure(&list(v), s, r, d))
        }),
        leaf("stability_short_term", 1500, remembered, |v| {
            let (s, r, d) = (f(v[34]), f(v[35]), f(v[36]));
            same(
                port::stability_short_term(&list(v), s, r, d, v[37] as u32),
                model::stability_short_term(&list(v), s, r, d, v[37] as usize),
            )
        }),
        leaf(
            "forgetting_curve",
            4000,
            |w| with_parameters(w, |w| vec![w.time(), w.stability()], false),
            |v| same(port::forgetting_curve(&list(v), f(v[34]), f(v[35])), model::forgetting_curve(&list(v), f(v[34]), f(v[35]))),
        ),
        leaf("forgetting_curve_for_state", 3000, timed, |v| {
            let (s, d, fast, t) = (f(v[34]), f(v[35]), f(v[36]), f(v[37]));
            same(
                port::forgetting_curve_for_state(&list(v), t, s, d, fast),
                model::forgetting_curve_for_state(&list(v), t, model::state(s, d, fast)),
            )
        }),
        leaf("forgetting_curve_and_derivative", 3000, timed, |v| {
            let (s, d, fast, t) = (f(v[34]), f(v[35]), f(v[36]), f(v[37]));
            (
                pair(port::forgetting_curve_and_derivative(&list(v), t, s, d, fast)),
                pair(model::forgetting_curve_and_derivative(&list(v), t, model::state(s, d, fast))),
            )
        }),
        leaf("next_interval_bisection", 300, wanted, |v| {
            let (s, d, fast, r) = (f(v[34]), f(v[35]), f(v[36]), f(v[37]));
            same(
                port::next_interval_bisection(&list(v), s, d, fast, r),
                model::next_interval_bisection(&list(v), model::state(s, d, fast), r),
            )
        }),
        leaf("next_interval_for_state", 600, wanted, |v| {
            let (s, d, fast, r) = (f(v[34]), f(v[35]), f(v[36]), f(v[37]));
            same(
                port::next_interval_for_state(&list(v), s, d, fast, r),
                model::next_interval_for_state(&list(v), model::state(s, d, fast), r),
            )
        }),
        leaf(
            "next_interval",
            600,
            |w| with_parameters(w, |w| vec![w.stability(), w.retention()], false),
            |v| same(port::next_interval(&list(v), f(v[34]), f(v[35])), model::next_interval(&list(v), f(v[34]), f(v[35]))),
        ),
        leaf(
            "scheduled",
            600,
            |w| with_parameters(w, |w| vec![w.stability(), w.retention(), longest(w)], false),
            |v| {
                let (s, r, most) = (f(v[34]), f(v[35]), f(v[36]));
                same(port::scheduled(&list(v), s, r, most), probe::Table::new().scheduled(&list(v), s, r, most))
            },
        ),
    ]
}

//! The reference's part in what the programs `points`, `run_points` and `search_points` must print.
use crate::cases::{USUAL, usual};
use crate::floats::pattern;
use crate::lent::Call;
use crate::reference;
use crate::searches;
use oracle::ours::model::model_v7::probe as model;
use oracle::ours::simulation::probe;

const STABILITIES: [u32; 10] =
    [0x38d1_b717, 0x3c23_d70a, 0x3f00_0000, 0x3f80_0000, 0x404c_cccd, 0x41dc_0000, 0x43c8_0000, 0x470e_9400, 0x7fc0_0000, 0xbf80_0000];
const DIFFICULTIES: [u32; 5] = [0x3f80_0000, 0x4053_3333, 0x40a0_0000, 0x411e_6666, 0x4120_0000];
const RETENTIONS: [u32; 5] = [0x3f66_6666, 0x3f7f_f972, 0x3f33_3333, 0x38d1_b717, 0x3f7d_70a4];

fn line(name: &str, values: &[f32]) -> String {
    let words: Vec<String> = values.iter().map(|x| format!(" {:08x}", pattern(*x))).collect();
    format!("{name}{}\n", words.concat())
}

fn stability(s: f32, d: f32) -> String {
    let success = |r, rating| model::stability_after_success(&USUAL, s, r, d, rating);
    let rest = [model::stability_after_failure(&USUAL, s, 0.3, d), model::stability_short_term(&USUAL, s, 1.0, d, 3)];
    line("stability", &[success(0.9, 2), success(0.5, 3), success(0.9, 4), rest[0], rest[1]])
}

fn curves(s: f32) -> String {
    let curve = |t| model::forgetting_curve(&USUAL, t, s);
    let state = || model::state(s, 7.5, s * 0.8);
    let of_state = |t| model::forgetting_curve_for_state(&USUAL, t, state());
    let (chance, slope) = model::forgetting_curve_and_derivative(&USUAL, 3.0, state());
    line("curve", &[curve(-1.0), curve(0.0), curve(1.0), curve(365.0)])
        + &line("curve_for_state", &[of_state(1.0), of_state(36500.0)])
        + &line("derivative", &[chance, slope])
}

fn interval(s: f32, r: f32) -> String {
    let bisection = model::next_interval_bisection(&USUAL, model::state(s, 5.0, s), r);
    let scheduled = probe::Table::new().scheduled(&USUAL, s, r, 36500.0);
    line("interval", &[model::next_interval(&USUAL, s, r), bisection, scheduled])
}

/// The lines that end in ok are of functions on floats and draws and stay; the model's follow them.
pub fn points(before: &str) -> String {
    let mut text: String = before.lines().filter(|l| l.ends_with(" ok")).map(|l| format!("{l}\n")).collect();
    (1..=4).for_each(|rating| text += &line("init_difficulty", &[model::init_difficulty(&USUAL, rating)]));
    for d in DIFFICULTIES.map(f32::from_bits) {
        let next = |rating, r| model::next_difficulty(&USUAL, d, rating, r);
        text += &line("next_difficulty", &[next(1, 1.0), next(2, 1.0), next(1, 0.7), next(4, 1.0)]);
    }
    for s in STABILITIES.map(f32::from_bits) {
        DIFFICULTIES.iter().for_each(|&d| text += &stability(s, f32::from_bits(d)));
    }
    STABILITIES.iter().for_each(|&s| text += &curves(f32::from_bits(s)));
    for s in STABILITIES.map(f32::from_bits) {
        RETENTIONS.iter().for_each(|&r| text += &interval(s, f32::from_bits(r)));
    }
    text
}

fn forecast(deck: u32, span: u32, places: usize, days: &[usize]) -> String {
    let mut c = usual(deck, span);
    c.parameters = vec![0.5; 34];
    c.max_cost_perday = 10.0;
    c.first_rating_prob = [0.0, 0.0, 0.0, 1.0];
    c.state_rating_costs = [8.0; 12];
    c.places = places;
    let r = reference::result(&Call::exact("", c));
    if r.number != 0 {
        return format!("refused {} {}\n", r.number, r.second);
    }
    let mut text = format!("turns {} cards {} draws {:016x}\n", r.turns, r.cards, r.draws);
    for &d in days {
        let n = r.days.get(d).copied().unwrap_or_default();
        let (cost, memorized) = (r.costs.get(d).unwrap_or(&0), r.memorized.get(d).unwrap_or(&0));
        text += &format!("day {} {} {} {} {cost:08x} {memorized:08x}\n", n[0], n[1], n[2], n[3]);
    }
    text
}

pub fn run_points() -> String {
    let mut text = forecast(2, 1, 64, &[0, 1, 9]) + &forecast(8, 10, 64, &[0, 1, 9]);
    for (deck, span) in [(65_536, 1), (65_537, 1), (2, 0), (2, 36_500), (2, 36_501)] {
        text += &forecast(deck, span, 20_000, &[]);
    }
    text
}

fn search(deck: u32, span: u32, learn_limit: u32, rounds: u32) -> String {
    let mut c = usual(deck, span);
    c.learn_limit = learn_limit;
    c.places = 4096;
    searches::told(&Call::exact("", c), rounds)
}

pub fn search_points() -> String {
    let none = u32::MAX;
    [(1, 40, none, 64), (2, 5, 1, 64), (4, 5, 0, 57), (8, 10, none, 1), (8, 10, none, 65)]
        .map(|(deck, span, limit, rounds)| search(deck, span, limit, rounds))
        .concat()
}

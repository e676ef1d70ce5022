//! Cases of a run: the usual one, and varied ones.
use crate::generate::Words;
use oracle::case::Case;
use oracle::ours::model::model_v7::probe as model;

/// A usual list of parameters. The published default is not at hand.
pub const USUAL: [f32; 34] = [
    0.1104, 2.2395, 3.9221, 11.7841, 6.1686, 0.6457, 3.0194, 3.3722, 0.1666, 0.796, 1.4, 0.2629, 1.6483, 0.6014, 1.8729, 3.3722, 0.1666,
    0.796, 1.4, 0.2629, 1.6483, 0.6014, 1.8729, 0.0392, 0.242, 0.6675, 0.9137, 0.4717, 0.4885, 0.8136, 0.698, 0.4621, 0.6547, 0.308,
];

/// The Rust's default configuration over a deck and a span, no cards, retention 0.9, seed 42.
pub fn usual(deck_size: u32, learn_span: u32) -> Case {
    Case {
        parameters: USUAL.to_vec(),
        deck_size,
        learn_span,
        max_cost_perday: 1800.0,
        max_ivl: 36500.0,
        first_rating_prob: [0.24, 0.094, 0.495, 0.171],
        review_rating_prob: [0.224, 0.631, 0.145],
        learn_limit: u32::MAX,
        review_limit: u32::MAX,
        new_cards_ignore_review_limit: true,
        suspend_after_lapses: u32::MAX,
        learning_step_transitions: [0.3686, 0.0628, 0.5108, 0.0577, 0.0442, 0.4553, 0.4457, 0.0549, 0.0519, 0.047, 0.8462, 0.055],
        relearning_step_transitions: [0.2157, 0.0643, 0.6595, 0.0604, 0.05, 0.4638, 0.4475, 0.0387, 0.1057, 0.1434, 0.7266, 0.0244],
        state_rating_costs: [19.58, 18.79, 13.78, 10.71, 19.38, 17.59, 12.38, 8.94, 16.44, 15.25, 12.32, 8.03],
        learning_step_count: 2,
        relearning_step_count: 1,
        desired_retention: 0.9,
        seed: 42,
        existing: Vec::new(),
        places: 40_000,
    }
}

/// Rows whose total is 2^−126 or less: there a product with the total is rounded, and no running sum may exceed it. Often the
/// total is a few times the least float, where that shows.
fn tiny<const N: usize>(words: &mut Words) -> [f32; N] {
    let least = f32::from_bits(1);
    let few = [0.0, -0.0, least, least, 2.0 * least, 3.0 * least];
    let more = [0.0, -0.0, least, 1e-40, 5e-39, f32::MIN_POSITIVE / 4.0];
    let from = if words.chance(3) { more } else { few };
    let mut row = std::array::from_fn(|_| words.pick(&from));
    row[words.below(N as u64) as usize] = words.pick(&from[2..]);
    row
}

fn weights<const N: usize>(words: &mut Words) -> [f32; N] {
    if words.chance(12) {
        return tiny(words);
    }
    let mut row = std::array::from_fn(|_| words.between(0.0, 1.0));
    if words.chance(3) {
        row.iter_mut().for_each(|x| {
            if words.chance(2) {
                *x = words.pick(&[0.0, 0.0, -0.0])
            }
        });
    }
    if words.chance(20) {
        row = std::array::from_fn(|_| words.pick(&[0.0, 1e-38, 1.2e-38, 1e30, 3.0]));
    }
    row[words.below(N as u64) as usize] += words.pick(&[1.0, 0.25, 1e-30]);
    row
}

fn table(words: &mut Words) -> [f32; 12] {
    let rows: [[f32; 4]; 3] = std::array::from_fn(|_| weights(words));
    std::array::from_fn(|i| rows[i / 4][i % 4])
}

fn cost(words: &mut Words) -> f32 {
    match words.below(8) {
        0 => words.pick(&[0.0, -0.0]),
        1 => words.scaled(1e-10, 1e-3),
        2 => words.scaled(1e3, 3e38),
        _ => words.between(1.0, 20.0),
    }
}

/// Costs, and the most that a day may cost: often sums of one cost, which a day can meet exactly.
fn costs(words: &mut Words, c: &mut Case) {
    c.max_cost_perday = match words.below(8) {
        0 => words.pick(&[0.0, -0.0]),
        1 => f32::INFINITY,
        2 => words.pick(&[-1.0, f32::NEG_INFINITY, 1e-3]),
        3 => words.between(0.0, 50.0),
        4 => words.between(0.0, 400.0),
        _ => 1800.0,
    };
    if words.chance(4) {
        let each = words.pick(&[1.0, 8.0, 0.5]);
        c.state_rating_costs = [each; 12];
        c.max_cost_perday = each * words.below(20) as f32;
    } else if words.chance(2) {
        c.state_rating_costs = std::array::from_fn(|_| cost(words));
    }
}

fn limit(words: &mut Words, deck: u32) -> u32 {
    match words.below(8) {
        0 => 0,
        1 => 1,
        2 => 2 + words.below(5) as u32,
        3 | 4 => words.below(deck as u64 + 2) as u32,
        5 => u32::MAX - 1 - words.below(3) as u32,
        _ => u32::MAX,
    }
}

/// A card that the entry takes: dates fractional, negative, far, in the future, or none.
pub fn card(words: &mut Words, span: u32) -> ([f32; 6], [u32; 2]) {
    let span = span as f32;
    let due = match words.below(8) {
        0 => words.between(-30.0, 0.0),
        1 => words.between(0.0, span),
        2 => words.pick(&[-16_777_216.0, 16_777_216.0, 40_000.0, -0.0]),
        3 => span + words.between(-2.0, 2.0),
        _ => words.between(0.0, span).floor(),
    };
    let last = match words.below(8) {
        0 | 1 => f32::NEG_INFINITY,
        2 => words.between(0.0, 2.0 * span),
        3 => words.pick(&[-16_777_216.0, 16_777_216.0, 0.0, -0.5]),
        _ => -(words.below(200) as f32) - words.pick(&[0.0, 0.0, 0.5]),
    };
    let difficulty = match words.below(8) {
        0 if last == f32::NEG_INFINITY => words.float(),
        0 => words.finite(),
        _ => words.between(1.0, 10.0),
    };
    let stability = match words.below(8) {
        0 => words.scaled(1e-9, 3e38),
        1 => words.pick(&[0.0, 1e-9, -1.0, f32::NAN, 1.1e-9]),
        _ => words.scaled(0.1, 1000.0),
    };
    let retention = match words.below(12) {
        0 => words.between(-0.5, 1.5),
        1 => words.finite(),
        2 => words.pick(&[1e30, -1e30, 3e38, -3e38, 1e-38, 17.0, -17.0]),
        _ => words.pick(&[0.9, 0.8, 0.95]),
    };
    let lapses = if words.chance(8) { words.below(4_000_000_001) as u32 } else { words.below(5) as u32 };
    let lapses = if words.chance(20) { 4_000_000_000 } else { lapses };
    let reps = words.pick(&[0, 3, u32::MAX - 1, u32::MAX]);
    ([difficulty, stability, last, due, words.float(), retention], [reps, lapses])
}

/// Cards of nearly one stability, reviewed on the first day and put far out on a flat curve: whether the interval table is asked
/// shows only in such cases.
pub fn far(words: &mut Words) -> Case {
    let cards = 20 + words.below(60) as u32;
    let mut c = usual(cards, 1 + words.below(5) as u32);
    c.parameters = words.flat_parameters();
    c.review_rating_prob = [0.0, 1.0, 0.0];
    c.learn_limit = 0;
    c.max_cost_perday = f32::INFINITY;
    c.seed = words.next();
    let (last, difficulty, stability) = (-(words.below(50) as f32), words.between(1.0, 10.0), words.scaled(1e-4, 0.1));
    let chance = model::forgetting_curve(&c.parameters, -last, stability);
    let after = model::stability_after_success(&c.parameters, stability, chance, difficulty, 3);
    let retention = model::forgetting_curve(&c.parameters, words.scaled(3000.0, 36000.0), after);
    c.existing = (0..cards).map(|_| ([difficulty, stability * words.between(0.9999, 1.0001), last, 0.0, 1.0, retention], [1, 0])).collect();
    c
}

/// Deck and span: mostly small; one in forty has more than 200 cards, and one in forty more than 400 days.
fn size(words: &mut Words) -> (u32, u32) {
    match words.below(80) {
        0 => (201 + words.below(1000) as u32, 1 + words.below(60) as u32),
        1 => (201 + words.below(4000) as u32, 1 + words.below(20) as u32),
        2 => (1 + words.below(20) as u32, 401 + words.below(2000) as u32),
        3 => (1 + words.below(4) as u32, 401 + words.below(10_000) as u32),
        n => {
            let deck = match n % 8 {
                0 => 1,
                1 | 2 => 1 + words.below(200) as u32,
                _ => 1 + words.below(30) as u32,
            };
            let span = match words.below(8) {
                0 => 1,
                1 => 1 + words.below(400) as u32,
                _ => 1 + words.below(60) as u32,
            };
            (deck, span)
        }
    }
}

/// A case that the entry takes, mostly.
pub fn varied(words: &mut Words) -> Case {
    let (deck, span) = size(words);
    let mut c = usual(deck, span);
    if words.chance(2) {
        c.parameters = words.parameters();
    }
    if words.chance(8) {
        (0..1 + words.below(8)).for_each(|_| c.parameters.push(words.float()));
    }
    c.max_ivl =
        if words.chance(2) { words.scaled(1.0, 36_500.0).clamp(1.0, 36_500.0) } else { words.pick(&[1.0, 1.5, 2.9999998, 36500.0, 30.0]) };
    if words.chance(2) {
        c.first_rating_prob = weights(words);
        c.review_rating_prob = weights(words);
        c.learning_step_transitions = table(words);
        c.relearning_step_transitions = table(words);
    }
    costs(words, &mut c);
    c.learn_limit = limit(words, deck);
    c.review_limit = limit(words, deck);
    c.new_cards_ignore_review_limit = words.chance(2);
    c.suspend_after_lapses = words.pick(&[u32::MAX, u32::MAX, 0, 1, 2, 5, 4_000_000_000, 4_000_000_001, u32::MAX - 1]);
    c.learning_step_count = words.pick(&[0, 1, 2, 2, 3, 6, u32::MAX]);
    c.relearning_step_count = words.pick(&[0, 1, 1, 2, 6, u32::MAX]);
    c.desired_retention = match words.below(6) {
        0 => words.between(-0.5, 1.5),
        1 => words.pick(&[0.0, 1.0, 0.9999, 1e30, -1e30]),
        _ => words.between(0.7, 0.97),
    };
    c.seed = words.next();
    let most = if words.chance(2) { 0 } else { deck as u64 };
    c.existing = (0..words.below(most + 1)).map(|_| card(words, span)).collect();
    c.places = match words.below(6) {
        0 => words.below(4) as usize,
        1 => words.below(40) as usize,
        _ => 20_000,
    };
    c
}

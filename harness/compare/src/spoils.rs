//! Calls that the entry turns away: one fault for each row of the table of refusals and more, alone and two at once.
use crate::cases::{card, usual};
use crate::generate::Words;
use crate::lent::{Call, Lengths};
use oracle::case::Case;

const BAD: [f32; 3] = [f32::NAN, f32::INFINITY, f32::NEG_INFINITY];

/// Breaks one rule that a card must meet.
fn spoil_card(words: &mut Words, c: &mut Case) {
    if c.existing.is_empty() {
        let row = card(words, c.learn_span);
        c.existing.push(row);
    }
    let i = words.below(c.existing.len() as u64) as usize;
    let bad = words.pick(&BAD);
    let (row, counts) = &mut c.existing[i];
    match words.below(6) {
        0 => row[1] = f32::INFINITY,
        1 => row[2] = words.pick(&[f32::NAN, f32::INFINITY, 16_777_218.0, -16_777_218.0]),
        2 => row[3] = words.pick(&[bad, 16_777_218.0, -16_777_218.0]),
        3 => row[5] = bad,
        4 => row[0] = bad,
        _ => counts[1] = 4_000_000_001 + words.below(100) as u32,
    }
}

/// Breaks one rule of the entry that is not about the lent lists.
pub fn spoil(words: &mut Words, c: &mut Case) {
    let bad = words.pick(&BAD);
    match words.below(14) {
        0 => c.parameters.truncate(words.below(34) as usize),
        1 => {
            let i = words.below(34) as usize;
            c.parameters.resize(c.parameters.len().max(i + 1), 0.5);
            c.parameters[i] = bad;
        }
        2 => c.deck_size = words.pick(&[0, 65_537, u32::MAX]),
        3 => c.learn_span = words.pick(&[0, 36_501, u32::MAX]),
        4 => c.first_rating_prob[words.below(4) as usize] = words.pick(&[bad, -1.0, -1e-45]),
        5 => c.review_rating_prob = words.pick(&[[0.0; 3], [-0.0; 3], [3e38; 3]]),
        6 => c.learning_step_transitions[words.below(12) as usize] = words.pick(&[bad, -1.0]),
        7 => c.relearning_step_transitions[8..].fill(0.0),
        8 => c.state_rating_costs[words.below(12) as usize] = words.pick(&[bad, -1.0]),
        9 => c.max_cost_perday = f32::NAN,
        10 => c.max_ivl = words.pick(&[bad, 0.0, 0.99999994, 36500.004]),
        11 => c.desired_retention = bad,
        12 => {
            let most = c.deck_size.min(300) as usize;
            while c.existing.len() <= most {
                let row = card(words, c.learn_span);
                c.existing.push(row);
            }
        }
        _ => spoil_card(words, c),
    }
}

/// Makes one list shorter, by one place or to none, or one of two that belong together longer.
pub fn shorten(words: &mut Words, n: &mut Lengths) {
    let to = |words: &mut Words, len: usize| if words.chance(4) { 0 } else { len.saturating_sub(1) };
    match words.below(9) {
        0 => {
            n.cards = to(words, n.cards);
            n.counts = n.cards;
        }
        1 => n.keys = to(words, n.keys),
        2 => n.intervals = words.pick(&[n.intervals + 1, n.intervals.saturating_sub(1)]),
        3 => n.counts = words.pick(&[n.counts + 1, n.counts.saturating_sub(1)]),
        4 => n.existing_counts = words.pick(&[n.existing_counts + 1, n.existing_counts.saturating_sub(1)]),
        _ => {
            let i = words.below(n.written().len() as u64) as usize;
            let len = *n.written()[i];
            *n.written()[i] = to(words, len);
        }
    }
}

type Fault = (&'static str, fn(&mut Call));

/// A fault for each row of the table, by each of its parts.
pub const FAULTS: [Fault; 16] = [
    ("a parameter too few", |call| call.case.parameters.truncate(33)),
    ("a parameter not finite", |call| {
        if let Some(x) = call.case.parameters.get_mut(20) {
            *x = f32::NAN
        }
    }),
    ("no deck", |call| call.case.deck_size = 0),
    ("a deck too large", |call| call.case.deck_size = 65_537),
    ("no span", |call| call.case.learn_span = 0),
    ("a span too long", |call| call.case.learn_span = 36_501),
    ("a negative weight", |call| call.case.learning_step_transitions[5] = -1.0),
    ("an infinite cost", |call| call.case.state_rating_costs[11] = f32::INFINITY),
    ("a maximum that is no number", |call| call.case.max_cost_perday = f32::NAN),
    ("a longest interval below 1", |call| call.case.max_ivl = 0.5),
    ("an infinite retention", |call| call.case.desired_retention = f32::INFINITY),
    ("a list too short", |call| call.lengths.due = 0),
    ("unequal columns of the interval table", |call| call.lengths.intervals = call.lengths.keys + 1),
    ("unequal rows of cards and of counts", |call| call.lengths.counts = call.lengths.cards + 1),
    ("more cards than the deck", |call| {
        call.case.existing = vec![GOOD_CARD; 30];
        call.case.deck_size = call.case.deck_size.min(29);
        call.lengths.existing = 30;
        call.lengths.existing_counts = 30;
    }),
    ("a card without a due date", |call| {
        if call.case.existing.is_empty() {
            call.case.existing = vec![GOOD_CARD; 7];
            call.lengths.existing = 7;
            call.lengths.existing_counts = 7;
        }
        call.case.existing[5].0[3] = f32::NAN
    }),
];

const GOOD_CARD: ([f32; 6], [u32; 2]) = ([5.0, 10.0, -3.0, 2.0, 5.0, 0.9], [1, 0]);

/// Each fault alone, and each two of them at once.
pub fn pairs() -> Vec<Call> {
    let mut all = Vec::new();
    for (i, (_, first)) in FAULTS.iter().enumerate() {
        for (_, second) in &FAULTS[i..] {
            let mut call = Call::exact("two faults", usual(20, 10));
            call.case.places = 500;
            call.lengths = Lengths::needed(&call.case);
            first(&mut call);
            second(&mut call);
            all.push(call);
        }
    }
    all
}

/// The ways of refusal 6: each list a place shorter, cards with their counts, costs with memorized, and each two that must be
/// alike unequal; beside them the same lists a place longer, most of which are taken.
pub fn lengths() -> Vec<Call> {
    let mut c = usual(20, 10);
    c.places = 500;
    c.existing = vec![GOOD_CARD; 7];
    let whole = Call::exact("lengths", c);
    let changed = |names: &[&str], change: fn(usize) -> usize| {
        let mut call = whole.clone();
        call.lengths.each().into_iter().filter(|(name, _)| names.contains(name)).for_each(|(_, len)| *len = change(*len));
        call
    };
    let each = whole.clone().lengths.each().map(|(name, _)| name);
    let mut all = vec![whole.clone()];
    for names in each.chunks(1).chain([&["cards", "counts"][..], &["costs", "memorized"]]) {
        all.extend([changed(names, |len| len + 1), changed(names, |len| len - 1)]);
    }
    all.push(changed(&each, |_| 0));
    all
}

//! What the entry refuses, by the table of refusals, written beside the port and the Rust.
use crate::lent::Call;
use oracle::case::Case;

fn weights_taken(row: &[f32]) -> bool {
    let sum = row.iter().fold(0.0f32, |a, b| a + b);
    row.iter().all(|&x| x.is_finite() && !(x < 0.0)) && sum.is_finite() && sum != 0.0
}

fn config_taken(c: &Case) -> bool {
    let tables = [&c.learning_step_transitions, &c.relearning_step_transitions];
    weights_taken(&c.first_rating_prob)
        && weights_taken(&c.review_rating_prob)
        && tables.iter().all(|t| t.chunks(4).all(weights_taken))
        && c.state_rating_costs.iter().all(|&x| x.is_finite() && !(x < 0.0))
        && !c.max_cost_perday.is_nan()
        && (1.0..=36_500.0).contains(&c.max_ivl)
}

fn dated(x: f32) -> bool {
    (-16_777_216.0..=16_777_216.0).contains(&x)
}

fn card_taken(row: [f32; 6], counts: [u32; 2]) -> bool {
    let [difficulty, stability, last, due, _, retention] = row;
    let history = last == f32::NEG_INFINITY || (dated(last) && difficulty.is_finite());
    stability.is_finite() && retention.is_finite() && dated(due) && history && counts[1] <= 4_000_000_000
}

/// The first list that is too short, or not as long as the one beside it, by its number in the header; 0 where none is.
pub fn short_list(call: &Call) -> u32 {
    let n = &call.lengths;
    let (deck, span) = (call.case.deck_size as usize, call.case.learn_span as usize);
    let long = [
        n.existing == n.existing_counts,
        n.keys == n.intervals,
        n.cards == n.counts,
        n.cards >= deck,
        n.queue >= deck,
        n.days >= span,
        n.costs >= span,
        n.memorized >= span,
        n.due >= span + span / 2,
    ];
    long.iter().position(|ok| !ok).map_or(0, |i| i as u32 + 1)
}

fn lists_taken(call: &Call) -> bool {
    short_list(call) == 0
}

fn first_bad_parameter(c: &Case) -> Option<(u32, u32)> {
    if c.parameters.len() < 34 {
        return Some((1, 34));
    }
    c.parameters[..34].iter().position(|x| !x.is_finite()).map(|i| (1, i as u32))
}

fn first_bad_card(call: &Call) -> Option<(u32, u32)> {
    let (rows, mut counts) = call.existing();
    counts.resize(rows.len(), [0; 2]);
    rows.iter().zip(counts).position(|(row, n)| row[1] > 1e-9 && !card_taken(*row, n)).map(|i| (5, i as u32))
}

/// All rows of the table that a call of the run is turned away by, in its order, each with its second number.
pub fn faults(call: &Call) -> Vec<(u32, u32)> {
    faults_with(call, call.case.desired_retention.is_finite())
}

/// The same of a search, which has rounds and no retention.
pub fn search_faults(call: &Call, rounds: u32) -> Vec<(u32, u32)> {
    faults_with(call, (1..=64).contains(&rounds))
}

fn faults_with(call: &Call, setting_taken: bool) -> Vec<(u32, u32)> {
    let c = &call.case;
    let failed = |test: bool, number: u32, second: u32| (!test).then_some((number, second));
    let rows = [
        first_bad_parameter(c),
        failed((1..=65_536).contains(&c.deck_size), 2, 0),
        failed((1..=36_500).contains(&c.learn_span), 3, 0),
        failed(config_taken(c) && setting_taken, 4, 0),
        failed(lists_taken(call), 6, 0),
        failed(call.lengths.existing <= c.deck_size as usize, 2, 1),
        first_bad_card(call),
    ];
    rows.into_iter().flatten().collect()
}

//! Calls made at random, and calls that follow from a run that ended.
use crate::cases;
use crate::generate::Words;
use crate::lent::{Call, Lengths};
use crate::result::Result;
use crate::spoils::{shorten, spoil};

/// A case with lists of the needed length or somewhat longer; one in ten breaks a rule of the entry, or two.
pub fn generated(words: &mut Words) -> Call {
    let mut case = if words.chance(8) { cases::far(words) } else { cases::varied(words) };
    let faults = if words.chance(10) { 1 + words.below(2) } else { 0 };
    (0..faults).for_each(|_| spoil(words, &mut case));
    let mut call = Call::exact("varied", case);
    if words.chance(2) {
        call.lengths.cards += words.below(4) as usize;
        call.lengths.counts = call.lengths.cards;
        call.lengths.written().into_iter().for_each(|len| *len += words.below(4) as usize);
    }
    if words.chance(20) || (faults > 0 && words.chance(4)) {
        shorten(words, &mut call.lengths);
    }
    call
}

fn with_places(call: &Call, made: &'static str, places: usize) -> Call {
    let mut next = Call { made, ..call.clone() };
    next.case.places = places;
    next.lengths.keys = places;
    next.lengths.intervals = places;
    next
}

/// The same run with a table as long as its keys, a place less, and longer than it was.
fn other_tables(words: &mut Words, call: &Call, keys: usize) -> Vec<Call> {
    let mut all = vec![with_places(call, "as long as its keys", keys)];
    if keys > 0 {
        all.push(with_places(call, "a place less than its keys", keys - 1));
    }
    all.push(with_places(call, "a longer table", call.lengths.keys + 1 + words.below(3000) as usize));
    all
}

/// The cards of a run as the existing cards of another, dates as they are or counted from the run's end.
pub fn chained(call: &Call, result: &Result, from_the_end: bool) -> Call {
    let mut case = call.case.clone();
    case.existing = result.rows();
    case.seed = result.draws;
    if from_the_end {
        let span = case.learn_span as f32;
        case.existing.iter_mut().for_each(|(row, _)| {
            row[2] -= span;
            row[3] -= span;
        });
    }
    case.deck_size = case.deck_size.max(case.existing.len() as u32);
    Call::exact("chained", case)
}

/// Calls that follow from a run that ended: other tables, its cards as existing ones, or one of its keys all over the table.
pub fn following(words: &mut Words, call: &Call, result: &Result) -> Vec<Call> {
    match words.below(18) {
        0 => other_tables(words, call, result.table.len()),
        1 | 2 => vec![chained(call, result, words.chance(2))],
        3 if !result.table.is_empty() => {
            let i = words.below(result.table.len() as u64) as usize;
            let poison = result.table[i].0;
            vec![Call { made: "a real key", poison, ..call.clone() }]
        }
        _ => vec![],
    }
}

/// Smaller calls near one that shows a difference.
pub fn smaller(call: &Call) -> Vec<Call> {
    let mut all = Vec::new();
    let usual = cases::usual(call.case.deck_size, call.case.learn_span);
    let mut put = |change: &dyn Fn(&mut oracle::case::Case)| {
        let mut next = call.clone();
        change(&mut next.case);
        if next.case != call.case {
            let (before, after) = (Lengths::needed(&call.case), Lengths::needed(&next.case));
            let places = next.lengths.each().into_iter();
            places
                .zip(before.clone().each())
                .zip(after.clone().each())
                .for_each(|((len, b), a)| *len.1 = (*len.1 + *a.1).saturating_sub(*b.1));
            all.push(next);
        }
    };
    put(&|d| d.existing.clear());
    for i in 0..call.case.existing.len().min(40) {
        put(&|d| {
            d.existing.remove(i);
        });
    }
    for deck in [1, usual.deck_size / 2, usual.deck_size.saturating_sub(1)] {
        put(&|d| d.deck_size = deck.max(d.existing.len() as u32).max(1));
    }
    for span in [1, usual.learn_span / 2, usual.learn_span.saturating_sub(1)] {
        put(&|d| d.learn_span = span.max(1));
    }
    put(&|d| d.parameters = usual.parameters.clone());
    put(&|d| d.max_cost_perday = usual.max_cost_perday);
    put(&|d| d.max_ivl = usual.max_ivl);
    put(&|d| (d.first_rating_prob, d.review_rating_prob) = (usual.first_rating_prob, usual.review_rating_prob));
    put(&|d| d.learning_step_transitions = usual.learning_step_transitions);
    put(&|d| d.relearning_step_transitions = usual.relearning_step_transitions);
    put(&|d| d.state_rating_costs = usual.state_rating_costs);
    put(&|d| d.learn_limit = u32::MAX);
    put(&|d| d.review_limit = u32::MAX);
    put(&|d| d.new_cards_ignore_review_limit = true);
    put(&|d| d.suspend_after_lapses = u32::MAX);
    put(&|d| (d.learning_step_count, d.relearning_step_count) = (0, 0));
    put(&|d| d.desired_retention = usual.desired_retention);
    put(&|d| d.seed = usual.seed);
    all
}

//! Settings and cards that the texts of examples/ do not have: each reaches the run, and comes back from it.
use crate::common::USUAL;
use street_drill::{Card, Forecast, SimulatorConfig, simulate};

fn forecast(config: &SimulatorConfig, existing: &[Card]) -> Forecast {
    simulate(config, &USUAL, 0.9, 42, existing).expect("the call is not refused")
}

fn small() -> SimulatorConfig {
    SimulatorConfig { deck_size: 40, learn_span: 61, ..SimulatorConfig::default() }
}

/// What the texts of examples/ do not show of the default; its tables are in what the programs print.
#[test]
fn defaults() {
    let config = SimulatorConfig::default();
    assert_eq!((config.deck_size, config.learn_span), (10_000, 365));
    assert_eq!((config.max_cost_perday, config.max_ivl), (1800.0, 36_500.0));
    assert_eq!((config.learn_limit, config.review_limit), (usize::MAX, usize::MAX));
    assert_eq!((config.new_cards_ignore_review_limit, config.suspend_after_lapses), (true, None));
    assert_eq!((Card::default().desired_retention, Card::default().last_date), (0.9, f32::NEG_INFINITY));
}

/// A card that is due behind the span is retired as it is.
#[test]
fn a_card_comes_back() {
    let card = Card {
        difficulty: 5.5,
        stability: 20.25,
        last_date: -8.0,
        due: 70.0,
        interval: 78.0,
        desired_retention: 0.85,
        reps: 4,
        lapses: 3,
    };
    let left = forecast(&small(), &[card]);
    assert_eq!((left.cards[0], left.due[70], left.due.len()), (card, 1, 91));
}

/// The retention of a new card is the run's, that of an existing one its own.
#[test]
fn retentions() {
    let card =
        Card { difficulty: 5.0, stability: 9.0, last_date: -3.0, due: 1.0, desired_retention: 0.8, ..Card::default() };
    let left = forecast(&small(), &[card]);
    assert_eq!((left.cards[0].desired_retention, left.cards[1].desired_retention), (0.8, 0.9));
    assert_eq!((left.cards[0].reps > 0, left.cards.len()), (true, 40));
}

/// `Some(0)` retires every card at once, `None` is no limit.
#[test]
fn lapse_limits() {
    let of = |suspend_after_lapses| forecast(&SimulatorConfig { suspend_after_lapses, ..small() }, &[]);
    assert_eq!((of(Some(0)).turns, of(Some(0)).days[0].learned), (40, 0));
    assert!(of(Some(1)).cards.iter().all(|card| card.lapses <= 1));
    assert!(of(None).cards.iter().any(|card| card.lapses > 1));
    assert_eq!(of(None), of(Some(u32::MAX)));
}

/// A limit that no u32 holds is none, as the largest is.
#[test]
fn daily_limits() {
    let of = |learn_limit, review_limit| forecast(&SimulatorConfig { learn_limit, review_limit, ..small() }, &[]);
    assert_eq!(of(usize::MAX, usize::MAX), of(1 << 32, 40));
    assert!(of(3, usize::MAX).days.iter().all(|day| day.learned <= 3));
    assert!(of(usize::MAX, 2).days.iter().all(|day| day.reviewed <= 2));
    assert_eq!(of(0, 2).cards, []);
}

#[test]
fn learnings_within_the_review_limit() {
    let of = |new_cards_ignore_review_limit| {
        forecast(&SimulatorConfig { review_limit: 4, new_cards_ignore_review_limit, ..small() }, &[])
    };
    assert!(of(false).days.iter().all(|day| day.learned + day.reviewed <= 4));
    assert!(of(true).days.iter().any(|day| day.learned + day.reviewed > 4));
}

/// Without steps a learning costs its first rating alone.
#[test]
fn step_counts() {
    let of = |learning_step_count, relearning_step_count| {
        forecast(&SimulatorConfig { learning_step_count, relearning_step_count, ..small() }, &[])
    };
    let without = SimulatorConfig { learning_step_count: 0, state_rating_costs: [[8.0; 4]; 3], ..small() };
    assert_eq!(forecast(&without, &[]).days[0].cost, 8.0 * 40.0);
    assert_ne!(of(2, 1), of(1, 2));
    assert_eq!(of(6, 5), of(usize::MAX, 1 << 40), "an event has at most five steps");
}

/// Another seed forecasts something else.
#[test]
fn seeds() {
    let of = |seed| simulate(&small(), &USUAL, 0.9, seed, &[]).unwrap();
    assert_eq!(of(7), of(7));
    assert_ne!(of(7).days, of(8).days);
}

/// A learning that is rated easy draws once, and a draw adds SplitMix64's number to the state, which began as the seed.
#[test]
fn state_of_the_draws() {
    let config = SimulatorConfig { learn_span: 1, first_rating_prob: [0.0, 0.0, 0.0, 1.0], ..small() };
    let of = |seed| simulate(&config, &USUAL, 0.9, seed, &[]).unwrap();
    for seed in [0, 7, u64::MAX] {
        assert_eq!(of(seed).draws, seed.wrapping_add(0x9E37_79B9_7F4A_7C15u64.wrapping_mul(40)));
    }
}

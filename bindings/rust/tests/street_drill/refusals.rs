//! Each refusal that a caller can meet, of a run and of a search, whole and on threads.
use crate::common::USUAL;
use std::num::NonZeroUsize;
use std::ops::ControlFlow;
use street_drill::{
    Card, Error, SimulatorConfig, optimal_retention, optimal_retention_on_threads, optimal_retention_with_progress,
    simulate,
};

/// A field, and a change after which it is refused.
type Wrong<T> = (&'static str, fn(&mut T));

fn small() -> SimulatorConfig {
    SimulatorConfig { deck_size: 5, learn_span: 60, ..SimulatorConfig::default() }
}

fn known() -> Card {
    Card { difficulty: 5.0, stability: 20.0, last_date: -8.0, due: 3.0, interval: 11.0, reps: 4, ..Card::default() }
}

/// What a run is refused with; the searches of 64 rounds must be refused alike.
fn refused(config: &SimulatorConfig, parameters: &[f32], existing: &[Card]) -> Error {
    let error = simulate(config, parameters, 0.9, 42, existing).unwrap_err();
    assert_eq!(searches(config, parameters, existing, 64), error);
    error
}

/// What the search is refused with, whole and on threads alike.
fn searches(config: &SimulatorConfig, parameters: &[f32], existing: &[Card], rounds: u32) -> Error {
    let error = optimal_retention(config, parameters, existing, rounds).unwrap_err();
    for threads in [1, 3] {
        let threads = NonZeroUsize::new(threads).unwrap();
        assert_eq!(optimal_retention_on_threads(config, parameters, existing, rounds, threads), Err(error));
    }
    error
}

fn numbers(error: Error) -> (u32, u32) {
    (error.number(), error.second())
}

#[test]
fn parameters() {
    assert_eq!(numbers(refused(&small(), &[], &[])), (1, 34));
    assert_eq!(numbers(refused(&small(), &USUAL[..33], &[])), (1, 34));
    for index in [0, 17, 33] {
        for wrong in [f32::NAN, f32::INFINITY] {
            let mut parameters = USUAL;
            parameters[index as usize] = wrong;
            assert_eq!(refused(&small(), &parameters, &[]), Error::ParameterNotFinite { index });
        }
    }
    let longer: Vec<f32> = USUAL.into_iter().chain([f32::NAN]).collect();
    assert_eq!(simulate(&small(), &longer, 0.9, 42, &[]), simulate(&small(), &USUAL, 0.9, 42, &[]));
}

#[test]
fn deck_and_span() {
    for deck_size in [0, 65_537, usize::MAX] {
        assert_eq!(numbers(refused(&SimulatorConfig { deck_size, ..small() }, &USUAL, &[])), (2, 0));
    }
    for learn_span in [0, 36_501, usize::MAX] {
        assert_eq!(numbers(refused(&SimulatorConfig { learn_span, ..small() }, &USUAL, &[])), (3, 0));
    }
    assert!(simulate(&SimulatorConfig { deck_size: 65_536, learn_span: 1, ..small() }, &USUAL, 0.9, 42, &[]).is_ok());
    assert!(simulate(&SimulatorConfig { deck_size: 1, learn_span: 36_500, ..small() }, &USUAL, 0.9, 42, &[]).is_ok());
    assert_eq!(numbers(refused(&SimulatorConfig { deck_size: 2, ..small() }, &USUAL, &[known(); 3])), (2, 1));
}

#[test]
fn settings() {
    let wrong: [Wrong<SimulatorConfig>; 12] = [
        ("first_rating_prob", |c| c.first_rating_prob[3] = -0.1),
        ("first_rating_prob", |c| c.first_rating_prob = [0.0; 4]),
        ("review_rating_prob", |c| c.review_rating_prob[0] = f32::NAN),
        ("learning_step_transitions", |c| c.learning_step_transitions[2] = [0.0; 4]),
        ("learning_step_transitions", |c| c.learning_step_transitions[0] = [f32::MAX; 4]),
        ("relearning_step_transitions", |c| c.relearning_step_transitions[1][1] = f32::INFINITY),
        ("state_rating_costs", |c| c.state_rating_costs[0][0] = -1.0),
        ("state_rating_costs", |c| c.state_rating_costs[2][3] = f32::NAN),
        ("max_cost_perday", |c| c.max_cost_perday = f32::NAN),
        ("max_ivl", |c| c.max_ivl = 0.5),
        ("max_ivl", |c| c.max_ivl = 36_501.0),
        ("max_ivl", |c| c.max_ivl = f32::NAN),
    ];
    for (field, change) in wrong {
        let mut config = small();
        change(&mut config);
        let error = refused(&config, &USUAL, &[]);
        assert_eq!((numbers(error), error), ((4, 0), Error::Config { field }));
        assert!(error.to_string().starts_with(field), "{error}");
    }
    for retention in [f32::NAN, f32::NEG_INFINITY] {
        let told = Error::Config { field: "desired_retention" };
        assert_eq!(simulate(&small(), &USUAL, retention, 42, &[]), Err(told));
    }
    for rounds in [0, 65, u32::MAX] {
        assert_eq!(searches(&small(), &USUAL, &[], rounds), Error::Config { field: "rounds" });
    }
}

#[test]
fn existing_cards() {
    let wrong: [Wrong<Card>; 8] = [
        ("stability", |c| c.stability = f32::INFINITY),
        ("due", |c| c.due = f32::NEG_INFINITY),
        ("due", |c| c.due = 16_777_218.0),
        ("desired_retention", |c| c.desired_retention = f32::NAN),
        ("last_date", |c| c.last_date = f32::NAN),
        ("last_date", |c| c.last_date = -16_777_218.0),
        ("difficulty", |c| c.difficulty = f32::NEG_INFINITY),
        ("lapses", |c| c.lapses = 4_000_000_001),
    ];
    for (field, change) in wrong {
        let mut cards = [known(), Card::default(), known(), known()];
        change(&mut cards[2]);
        change(&mut cards[3]);
        let error = refused(&small(), &USUAL, &cards);
        assert_eq!((numbers(error), error), ((5, 2), Error::ExistingCard { place: 2, field }));
    }
    // A card without a last date needs no difficulty: it is refused for its due date.
    let new = Card { difficulty: f32::NEG_INFINITY, last_date: f32::NEG_INFINITY, due: f32::NAN, ..known() };
    assert_eq!(refused(&small(), &USUAL, &[new]), Error::ExistingCard { place: 0, field: "due" });
}

/// A card whose stability is not above 1e-9 is dropped, whatever else it holds.
#[test]
fn cards_that_are_not_kept() {
    let dropped = [f32::NAN, 1e-9, -1.0].map(|stability| Card { stability, due: f32::NAN, ..known() });
    let cards = [dropped[0], known(), dropped[1], dropped[2]];
    let forecast = simulate(&small(), &USUAL, 0.9, 42, &cards).unwrap();
    assert_eq!(forecast, simulate(&small(), &USUAL, 0.9, 42, &[known()]).unwrap());
    assert_eq!((forecast.cards.len(), forecast.cards[0].reps > 4), (5, true));
}

#[test]
fn chance() {
    assert_eq!(numbers(refused(&small(), &[2.0; 34], &[])), (7, 2));
}

#[test]
fn rounds_used_up() {
    assert_eq!(searches(&small(), &USUAL, &[], 1), Error::NotFound { rounds: 1 });
}

/// Of two faults the first in the table's order is told.
#[test]
fn order() {
    let config = SimulatorConfig { deck_size: 0, learn_span: 0, max_ivl: 0.0, ..small() };
    assert_eq!(searches(&config, &[], &[], 0), Error::TooFewParameters);
    assert_eq!(searches(&config, &USUAL, &[], 0), Error::DeckSize);
    let config = SimulatorConfig { deck_size: 1, ..config };
    assert_eq!(searches(&config, &USUAL, &[], 0), Error::LearnSpan);
    let unfit = Card { due: f32::NAN, ..known() };
    assert_eq!(searches(&SimulatorConfig { deck_size: 1, ..small() }, &USUAL, &[unfit; 2], 0).number(), 4);
    assert_eq!(refused(&SimulatorConfig { deck_size: 1, ..small() }, &USUAL, &[unfit; 2]), Error::TooManyCards);
}

/// A search that is refused at its first run, or at its entry, tells no trial.
#[test]
fn no_trial_is_told() {
    let threads = NonZeroUsize::MIN;
    let mut told = 0;
    let mut count = |_| {
        told += 1;
        ControlFlow::Continue(())
    };
    let refused = optimal_retention_with_progress(&small(), &[2.0; 34], &[], 64, threads, &mut count);
    assert_eq!(refused, Err(Error::ChanceOutOfRange { card: 2 }));
    assert!(optimal_retention_with_progress(&small(), &USUAL, &[], 65, threads, &mut count).is_err());
    assert_eq!(told, 0);
}

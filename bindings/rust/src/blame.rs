//! Which field a refusal is about. The library tells the rule's number alone, so it is asked again, with a good
//! configuration or card that has one field of the given one: its own rules decide, and none is written here again.
use crate::config::{Card, SimulatorConfig};
use crate::error::{Error, Refused};
use crate::lists::{Inputs, Lists};
use crate::native;

/// Each field's name, and how its value is put into another.
macro_rules! fields {
    ($type:ty: $($name:ident),+) => {
        [$((stringify!($name), |to: &mut $type, from: &$type| to.$name = from.$name)),+]
    };
}

type Field<T> = (&'static str, fn(&mut T, &T));

/// The fields that 4 may be about.
const SETTINGS: [Field<SimulatorConfig>; 7] = fields!(SimulatorConfig: first_rating_prob, review_rating_prob,
    learning_step_transitions, relearning_step_transitions, state_rating_costs, max_cost_perday, max_ivl);

/// The fields that 5 may be about. The difficulty is the last, since it may be infinite where the last date is.
const CARD: [Field<Card>; 6] = fields!(Card: stability, desired_retention, due, last_date, lapses, difficulty);

/// The refusal of a call with these inputs; 4 is about `other`, an argument of the call, where no setting is wrong.
pub fn error(refused: Refused, inputs: &Inputs, other: &'static str) -> Error {
    Error::new(refused, || match refused.number {
        4 => first(&SETTINGS, &smallest(), inputs.config, |config| asked(config, inputs.parameters, &[]) == Some(4))
            .unwrap_or(other),
        _ => first(&CARD, &known(), &inputs.card(refused.second as usize), |card| {
            asked(&smallest(), inputs.parameters, &[*card]) == Some(5)
        })
        .expect("some field is wrong alone"),
    })
}

/// The first field whose value is refused in place of the good one.
fn first<T: Clone>(fields: &[Field<T>], good: &T, given: &T, refused: impl Fn(&T) -> bool) -> Option<&'static str> {
    let wrong = fields.iter().find(|(_, put)| {
        let mut mixed = good.clone();
        put(&mut mixed, given);
        refused(&mixed)
    });
    wrong.map(|(name, _)| *name)
}

fn smallest() -> SimulatorConfig {
    SimulatorConfig { deck_size: 1, learn_span: 1, ..SimulatorConfig::default() }
}

fn known() -> Card {
    Card { difficulty: 5.0, stability: 1.0, last_date: 0.0, due: 1.0, ..Card::default() }
}

/// The number that a run is refused with.
fn asked(config: &SimulatorConfig, parameters: &[f32], existing: &[Card]) -> Option<u32> {
    let inputs = Inputs::new(config, parameters, existing);
    native::simulate(&inputs, 0.9, 0, &mut Lists::new(config, 1)).err().map(|refused| refused.number)
}

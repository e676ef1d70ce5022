//! A run, and what it forecasts.
use crate::blame;
use crate::config::{Card, SimulatorConfig};
use crate::error::{Error, Refused};
use crate::lists::{FIRST_PLACES, Inputs, Lists, card_of};
use crate::native::{self, Ended};

/// What a run forecasts.
#[derive(Clone, Debug, PartialEq)]
pub struct Forecast {
    /// A row for each day of the span.
    pub days: Vec<Day>,
    /// Due counts of each day, from day 0 on, for the span and half of it again. They begin with the existing cards that
    /// were kept, each on the day it is due, with a last date or without. An event adds one on the day for which it
    /// schedules the card, so a new card is counted once it is learned; nothing is taken from the event's own day. A
    /// card with a last date that is put off moves to the next day.
    pub due: Vec<u32>,
    /// The run's cards as it left them: the existing ones that were kept, in their order, then the new ones.
    pub cards: Vec<Card>,
    /// The turns taken: learnings, reviews, puttings off and retirings.
    pub turns: u64,
    /// The state of the draws in the end; the seed of a run that goes on drawing where this one stopped.
    pub draws: u64,
}

/// A day of a forecast.
#[derive(Clone, Copy, Debug, PartialEq)]
pub struct Day {
    /// Cards learned on it.
    pub learned: u32,
    /// Cards reviewed on it.
    pub reviewed: u32,
    /// Those of the reviews that were recalled.
    pub correct: u32,
    /// The existing cards that were kept and have a last date, be it a later day, and all cards learned up to its end.
    pub introduced: u32,
    /// Seconds that it costs.
    pub cost: f32,
    /// How many cards are held in memory: the sum of their chances of recall on that day.
    pub memorized: f32,
}

/// Simulates the drill. The parameters are FSRS-7's, the first 34 of the list; new cards are reviewed at the desired
/// retention, existing ones at their own.
///
/// ```
/// use street_drill::{Card, SimulatorConfig, simulate};
///
/// let config = SimulatorConfig { deck_size: 50, learn_span: 30, learn_limit: 2, ..Default::default() };
/// let known = Card { difficulty: 5.0, stability: 20.0, last_date: -8.0, due: 3.0, reps: 4, ..Card::default() };
/// let forecast = simulate(&config, &[0.5; 34], 0.9, 42, &[known])?;
/// assert_eq!((forecast.days.len(), forecast.due.len(), forecast.cards.len()), (30, 45, 50));
/// assert_eq!(forecast.days[0].introduced, 3);
/// # Ok::<(), street_drill::Error>(())
/// ```
pub fn simulate(
    config: &SimulatorConfig,
    parameters: &[f32],
    desired_retention: f32,
    seed: u64,
    existing_cards: &[Card],
) -> Result<Forecast, Error> {
    Runner::new(config, parameters, existing_cards).simulate(desired_retention, seed)
}

/// Runs of the same configuration, parameters and existing cards, over lists that are kept from one run to the next.
///
/// ```
/// use street_drill::{Runner, SimulatorConfig, simulate};
///
/// let config = SimulatorConfig { deck_size: 50, learn_span: 30, ..Default::default() };
/// let mut runner = Runner::new(&config, &[0.5; 34], &[]);
/// let held = |seed| Ok(runner.simulate(0.9, seed)?.days[29].memorized);
/// let most = (1..=10).map(held).collect::<Result<Vec<f32>, street_drill::Error>>()?.into_iter().fold(0.0, f32::max);
/// assert!(most > 40.0);
/// # Ok::<(), street_drill::Error>(())
/// ```
pub struct Runner<'a> {
    inputs: Inputs<'a>,
    lists: Lists,
}

impl<'a> Runner<'a> {
    /// The arguments are those of [`simulate`].
    pub fn new(config: &'a SimulatorConfig, parameters: &'a [f32], existing_cards: &[Card]) -> Runner<'a> {
        Runner { inputs: Inputs::new(config, parameters, existing_cards), lists: Lists::new(config, FIRST_PLACES) }
    }

    /// The forecast that [`simulate`] gives.
    pub fn simulate(&mut self, desired_retention: f32, seed: u64) -> Result<Forecast, Error> {
        match run(&self.inputs, desired_retention, seed, &mut self.lists) {
            Ok(ended) => Ok(forecast_of(&self.lists, ended)),
            Err(refused) => Err(blame::error(refused, &self.inputs, "desired_retention")),
        }
    }
}

/// A run, made again with a longer interval table for as long as it is full. The length plays no part in what it
/// forecasts (docs/RULES.md, D6), and a table with a place for each turn is never full, so there is an end.
pub fn run(inputs: &Inputs, desired_retention: f32, seed: u64, lists: &mut Lists) -> Result<Ended, Refused> {
    loop {
        match native::simulate(inputs, desired_retention, seed, lists) {
            Err(Refused { number: 8, .. }) => lists.lengthen(),
            answer => return answer,
        }
    }
}

/// The forecast that a run which ended left in its lists.
fn forecast_of(lists: &Lists, ended: Ended) -> Forecast {
    let sums = lists.costs.iter().zip(&lists.memorized);
    let day = |(&[learned, reviewed, correct, introduced], (&cost, &memorized)): (&[u32; 4], (&f32, &f32))| Day {
        learned,
        reviewed,
        correct,
        introduced,
        cost,
        memorized,
    };
    let cards = lists.cards.iter().zip(&lists.counts).take(ended.cards);
    Forecast {
        days: lists.days.iter().zip(sums).map(day).collect(),
        due: lists.due.clone(),
        cards: cards.map(|(&row, &counts)| card_of(row, counts)).collect(),
        turns: ended.turns,
        draws: ended.draws,
    }
}

#[cfg(test)]
mod tests {
    use super::*;

    /// A run from a table that is too short must be refused by 8 when it is made once, and end like one with a long
    /// table when it is made again.
    fn from_short(config: &SimulatorConfig, existing: &[Card], places: usize, enough: usize) {
        let inputs = Inputs::new(config, &[0.5; 34], existing);
        let mut lists = Lists::new(config, places);
        let short = native::simulate(&inputs, 0.9, 7, &mut lists);
        assert!(matches!(short, Err(Refused { number: 8, .. })), "{places} places are too few");
        let ended = run(&inputs, 0.9, 7, &mut lists).unwrap();
        assert!(lists.intervals.len() > places);
        let mut long = Lists::new(config, enough);
        assert!(native::simulate(&inputs, 0.9, 7, &mut long).is_ok());
        let ended_long = run(&inputs, 0.9, 7, &mut long).unwrap();
        assert_eq!(forecast_of(&lists, ended), forecast_of(&long, ended_long));
    }

    #[test]
    fn a_short_table_is_made_longer() {
        let config = SimulatorConfig { deck_size: 60, learn_span: 40, ..Default::default() };
        (0..20).for_each(|places| from_short(&config, &[], places, 3000));
    }

    /// Cards of many retentions fill the table that a call begins with.
    #[test]
    fn the_first_table_is_made_longer() {
        let card = |i: usize| Card {
            difficulty: 1.0 + (i % 9) as f32,
            stability: 0.5 + (i % 97) as f32,
            last_date: -1.0,
            due: 0.0,
            desired_retention: 0.8 + 0.0005 * (i % 380) as f32,
            ..Card::default()
        };
        let existing: Vec<Card> = (0..1000).map(card).collect();
        let config =
            SimulatorConfig { deck_size: 1000, learn_span: 90, max_cost_perday: f32::INFINITY, ..Default::default() };
        from_short(&config, &existing, FIRST_PLACES, 100_000);
    }

    /// Runs of one runner are those of `simulate`, also after one that was refused, and none makes lists of its own.
    #[test]
    fn lists_are_kept() {
        let config = SimulatorConfig { deck_size: 60, learn_span: 40, ..Default::default() };
        let mut runner = Runner::new(&config, &[0.5; 34], &[]);
        let places =
            |runner: &Runner| (runner.lists.cards.as_ptr(), runner.lists.days.as_ptr(), runner.lists.due.as_ptr());
        let before = places(&runner);
        for seed in [7, 8, 7] {
            assert_eq!(runner.simulate(0.85, seed), simulate(&config, &[0.5; 34], 0.85, seed, &[]));
            assert_eq!(runner.simulate(f32::NAN, seed), Err(Error::Config { field: "desired_retention" }));
        }
        assert_eq!(places(&runner), before);
    }
}

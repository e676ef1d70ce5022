//! What crosses to the C functions: a call's inputs as rows and numbers, and lists of the needed lengths.
use crate::config::{Card, SimulatorConfig};

const MOST_CARDS: usize = 65_536;
const MOST_DAYS: usize = 36_500;

/// How long the interval table is at first. A run keeps an interval for each thousandth of ln(stability), and
/// stabilities from 0.0001 to 36,500 days have 19,716 of them (counted, not proved): so it is enough where all cards
/// have one retention.
pub const FIRST_PLACES: usize = 32_768;

/// A call's inputs.
pub struct Inputs<'a> {
    pub config: &'a SimulatorConfig,
    pub parameters: &'a [f32],
    pub existing_cards: Vec<[f32; 6]>,
    pub existing_counts: Vec<[u32; 2]>,
}

impl<'a> Inputs<'a> {
    pub fn new(config: &'a SimulatorConfig, parameters: &'a [f32], existing: &[Card]) -> Inputs<'a> {
        let row = |c: &Card| [c.difficulty, c.stability, c.last_date, c.due, c.interval, c.desired_retention];
        Inputs {
            config,
            parameters,
            existing_cards: existing.iter().map(row).collect(),
            existing_counts: existing.iter().map(|c| [c.reps, c.lapses]).collect(),
        }
    }

    /// An existing card.
    pub fn card(&self, place: usize) -> Card {
        card_of(self.existing_cards[place], self.existing_counts[place])
    }
}

/// A card from its rows.
pub fn card_of(row: [f32; 6], [reps, lapses]: [u32; 2]) -> Card {
    let [difficulty, stability, last_date, due, interval, desired_retention] = row;
    Card { difficulty, stability, last_date, due, interval, desired_retention, reps, lapses }
}

/// The lists that a run writes.
pub struct Lists {
    pub cards: Vec<[f32; 6]>,
    pub counts: Vec<[u32; 2]>,
    pub queue: Vec<[u64; 2]>,
    pub days: Vec<[u32; 4]>,
    pub costs: Vec<f32>,
    pub memorized: Vec<f32>,
    pub due: Vec<u32>,
    pub keys: Vec<[u32; 2]>,
    pub intervals: Vec<f32>,
}

impl Lists {
    /// As long as a run needs them, with so many places in the interval table. A deck or a span above the library's
    /// limits is refused before the lists are looked at, so none is longer than these limits ask.
    pub fn new(config: &SimulatorConfig, places: usize) -> Lists {
        let deck = config.deck_size.min(MOST_CARDS);
        let span = config.learn_span.min(MOST_DAYS);
        Lists {
            cards: vec![[0.0; 6]; deck],
            counts: vec![[0; 2]; deck],
            queue: vec![[0; 2]; deck],
            days: vec![[0; 4]; span],
            costs: vec![0.0; span],
            memorized: vec![0.0; span],
            due: vec![0; span + span / 2],
            keys: vec![[0; 2]; places],
            intervals: vec![0.0; places],
        }
    }

    /// An interval table of twice the length. What it held plays no part in the next run, which empties it.
    pub fn lengthen(&mut self) {
        let places = (2 * self.intervals.len()).max(1);
        self.keys = vec![[0; 2]; places];
        self.intervals = vec![0.0; places];
    }
}

//! What a run leaves: the definitions' `Result`, floats by their bits.
use crate::floats::bits;
use crate::lent::Call;
use crate::lists::{entries, keyed};
use crate::rules::short_list;
use oracle::trace::Trace;

/// `number` 0 is Ok. The lists are those places that the run may write; `spared` says that every other place, the guard
/// places too, is as it was lent.
#[derive(Clone, Debug, PartialEq)]
pub struct Result {
    pub number: u32,
    pub second: u32,
    pub turns: u64,
    pub cards: u32,
    /// How many cards are still queued.
    pub queued: u32,
    /// The list that refusal 6 is about.
    pub list: u32,
    pub draws: u64,
    pub floats: Vec<[u64; 6]>,
    pub counts: Vec<[u32; 2]>,
    pub queue: Vec<[u64; 2]>,
    pub days: Vec<[u32; 4]>,
    pub costs: Vec<u64>,
    pub memorized: Vec<u64>,
    pub due: Vec<u32>,
    pub table: Vec<([u32; 2], u32)>,
    pub spared: bool,
}

impl Result {
    /// An entry's refusal: nothing is written.
    pub fn refused(seed: u64, number: u32, second: u32) -> Result {
        Result {
            number,
            second,
            turns: 0,
            cards: 0,
            queued: 0,
            list: 0,
            draws: seed,
            floats: vec![],
            counts: vec![],
            queue: vec![],
            days: vec![],
            costs: vec![],
            memorized: vec![],
            due: vec![],
            table: vec![],
            spared: true,
        }
    }

    /// What a call that the entry turns away leaves, by the rules.
    pub fn refused_at_entry(call: &Call, number: u32, second: u32) -> Result {
        let list = if number == 6 { short_list(call) } else { 0 };
        Result { list, ..Result::refused(call.case.seed, number, second) }
    }

    /// What a run of the Rust came to.
    pub fn of(t: &Trace, turns: u64, number: u32, second: u32) -> Result {
        Result {
            number,
            second,
            turns,
            cards: t.cards.len() as u32,
            queued: t.queue.len() as u32,
            list: 0,
            draws: t.draws,
            floats: t.cards.iter().map(|c| c.0.map(bits)).collect(),
            counts: t.cards.iter().map(|c| c.1).collect(),
            queue: keyed(&t.queue),
            days: t.days.clone(),
            costs: t.costs.iter().map(|x| bits(*x)).collect(),
            memorized: t.memorized.iter().map(|x| bits(*x)).collect(),
            due: t.due.clone(),
            table: entries(&t.table),
            spared: true,
        }
    }

    /// The run's cards as they can be given to another run.
    pub fn rows(&self) -> Vec<([f32; 6], [u32; 2])> {
        self.floats.iter().zip(&self.counts).map(|(x, n)| (x.map(|b| f32::from_bits(b as u32)), *n)).collect()
    }

    pub fn events(&self) -> u64 {
        self.days.iter().map(|row| (row[0] + row[1]) as u64).sum()
    }

    /// The parts in which two results differ.
    pub fn differing(&self, other: &Result) -> Vec<&'static str> {
        let parts = [
            ("number", self.number == other.number),
            ("second number", self.second == other.second),
            ("turns", self.turns == other.turns),
            ("number of cards", self.cards == other.cards),
            ("cards queued", self.queued == other.queued),
            ("list of refusal 6", self.list == other.list),
            ("draws", self.draws == other.draws),
            ("cards", self.floats == other.floats),
            ("reps and lapses", self.counts == other.counts),
            ("queue", self.queue == other.queue),
            ("day counts", self.days == other.days),
            ("costs", self.costs == other.costs),
            ("memorized", self.memorized == other.memorized),
            ("due counts", self.due == other.due),
            ("interval table", self.table == other.table),
            ("places beyond", self.spared == other.spared),
        ];
        parts.iter().filter(|p| !p.1).map(|p| p.0).collect()
    }
}

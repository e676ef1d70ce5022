//! The lists that a run is lent, its call, and the search's: the one place that knows how many they are, their order and their rows.
//! Each list stands within a longer one, guard places before and after it, and every place is marked beforehand.
use crate::floats::bits;
use crate::lists::held;
use crate::result::Result;
use oracle::case::Case;

/// `struct drill_config`.
#[repr(C)]
struct Config {
    deck_size: u32,
    learn_span: u32,
    max_cost_perday: f32,
    max_ivl: f32,
    first_rating_prob: [f32; 4],
    review_rating_prob: [f32; 3],
    learn_limit: u32,
    review_limit: u32,
    new_cards_ignore_review_limit: bool,
    suspend_after_lapses: u32,
    learning_step_transitions: [f32; 12],
    relearning_step_transitions: [f32; 12],
    state_rating_costs: [f32; 12],
    learning_step_count: u32,
    relearning_step_count: u32,
}

/// `struct drill_answer`.
#[repr(C)]
struct RunNumbers {
    refusal: u32,
    second: u32,
    list: u32,
    turns: u32,
    cards: u32,
    queued: u32,
    draws: u64,
}

/// `struct drill_found`.
#[repr(C)]
struct SearchNumbers {
    refusal: u32,
    second: u32,
    list: u32,
    rounds: u32,
    retention: f32,
    mean: f32,
}

/// A run's answer: number, second number, turns, cards, draws, how many cards are queued, and the list that refusal 6 is about.
pub type Answer = [u64; 7];

unsafe extern "C" {
    fn drill_simulate(
        parameters: *const f32,
        parameters_len: usize,
        existing: *const [f32; 6],
        existing_len: usize,
        existing_counts: *const [u32; 2],
        existing_counts_len: usize,
        config: Config,
        desired_retention: f32,
        seed: u64,
        cards: *mut [f32; 6],
        cards_len: usize,
        counts: *mut [u32; 2],
        counts_len: usize,
        queue: *mut [u64; 2],
        queue_len: usize,
        days: *mut [u32; 4],
        days_len: usize,
        costs: *mut f32,
        costs_len: usize,
        memorized: *mut f32,
        memorized_len: usize,
        due: *mut u32,
        due_len: usize,
        keys: *mut [u32; 2],
        keys_len: usize,
        intervals: *mut f32,
        intervals_len: usize,
    ) -> RunNumbers;
    fn drill_optimal_retention(
        parameters: *const f32,
        parameters_len: usize,
        existing: *const [f32; 6],
        existing_len: usize,
        existing_counts: *const [u32; 2],
        existing_counts_len: usize,
        config: Config,
        rounds: u32,
        cards: *mut [f32; 6],
        cards_len: usize,
        counts: *mut [u32; 2],
        counts_len: usize,
        queue: *mut [u64; 2],
        queue_len: usize,
        days: *mut [u32; 4],
        days_len: usize,
        costs: *mut f32,
        costs_len: usize,
        memorized: *mut f32,
        memorized_len: usize,
        due: *mut u32,
        due_len: usize,
        keys: *mut [u32; 2],
        keys_len: usize,
        intervals: *mut f32,
        intervals_len: usize,
    ) -> SearchNumbers;
}

pub const MARK: u32 = 0x4ABC_DEF1;
const GUARD: usize = 3;

/// A number or a row of numbers that can be marked.
pub trait Place: Copy + PartialEq {
    const MARKED: Self;
}

impl Place for f32 {
    const MARKED: f32 = f32::from_bits(MARK);
}

impl Place for u32 {
    const MARKED: u32 = MARK;
}

impl Place for u64 {
    const MARKED: u64 = MARK as u64;
}

impl<T: Place, const N: usize> Place for [T; N] {
    const MARKED: [T; N] = [T::MARKED; N];
}

/// A list between guard places.
#[derive(Clone)]
pub struct List<T> {
    whole: Vec<T>,
}

impl<T: Place> List<T> {
    fn new(len: usize) -> List<T> {
        List { whole: vec![T::MARKED; len + 2 * GUARD] }
    }

    pub fn places(&self) -> &[T] {
        &self.whole[GUARD..self.whole.len() - GUARD]
    }

    pub fn places_mut(&mut self) -> &mut [T] {
        let end = self.whole.len() - GUARD;
        &mut self.whole[GUARD..end]
    }

    /// The guard place before the first place, and the one after the last.
    pub fn guards_mut(&mut self) -> [&mut T; 2] {
        let end = self.whole.len() - GUARD;
        let (before, after) = self.whole.split_at_mut(end);
        [&mut before[GUARD - 1], &mut after[0]]
    }

    /// The first n places, or all where there are fewer.
    fn first(&self, n: usize) -> &[T] {
        &self.places()[..n.min(self.places().len())]
    }

    /// Whether all is still marked but the first n places.
    fn marked_but(&self, n: usize) -> bool {
        let end = GUARD + self.first(n).len();
        self.whole[..GUARD].iter().chain(&self.whole[end..]).all(|x| *x == T::MARKED)
    }
}

/// How long each list is.
#[derive(Clone, Debug, PartialEq)]
pub struct Lengths {
    pub cards: usize,
    pub counts: usize,
    pub queue: usize,
    pub days: usize,
    pub costs: usize,
    pub memorized: usize,
    pub due: usize,
    pub keys: usize,
    pub intervals: usize,
    pub existing: usize,
    pub existing_counts: usize,
}

impl Lengths {
    /// As long as a run of this case needs them.
    pub fn needed(c: &Case) -> Lengths {
        let deck = c.deck_size.min(65_536) as usize;
        let span = c.learn_span.min(36_500) as usize;
        Lengths {
            cards: deck,
            counts: deck,
            queue: deck,
            days: span,
            costs: span,
            memorized: span,
            due: span + span / 2,
            keys: c.places,
            intervals: c.places,
            existing: c.existing.len(),
            existing_counts: c.existing.len(),
        }
    }

    /// The written lists but the cards with their counts and the interval table.
    pub fn written(&mut self) -> [&mut usize; 5] {
        [&mut self.queue, &mut self.days, &mut self.costs, &mut self.memorized, &mut self.due]
    }

    /// The lists that have a place for each day.
    pub fn of_days(&self) -> [usize; 3] {
        [self.days, self.costs, self.memorized]
    }

    /// The lengths in the order of the fields, with their names.
    pub fn each(&mut self) -> [(&'static str, &mut usize); 11] {
        [
            ("cards", &mut self.cards),
            ("counts", &mut self.counts),
            ("queue", &mut self.queue),
            ("days", &mut self.days),
            ("costs", &mut self.costs),
            ("memorized", &mut self.memorized),
            ("due", &mut self.due),
            ("keys", &mut self.keys),
            ("intervals", &mut self.intervals),
            ("existing", &mut self.existing),
            ("existing_counts", &mut self.existing_counts),
        ]
    }
}

/// A run's inputs with the lists that it is lent.
#[derive(Clone, Debug, PartialEq)]
pub struct Call {
    /// How the call was made.
    pub made: &'static str,
    pub case: Case,
    pub lengths: Lengths,
    /// The key that stands in every place of the interval table beforehand.
    pub poison: [u32; 2],
}

impl Call {
    /// With lists of exactly the needed length.
    pub fn exact(made: &'static str, case: Case) -> Call {
        Call { made, lengths: Lengths::needed(&case), case, poison: [MARK; 2] }
    }

    /// The existing cards as the call gives them: as many rows and counts as the lengths say.
    pub fn existing(&self) -> (Vec<[f32; 6]>, Vec<[u32; 2]>) {
        let mut floats: Vec<[f32; 6]> = self.case.existing.iter().map(|row| row.0).collect();
        let mut counts: Vec<[u32; 2]> = self.case.existing.iter().map(|row| row.1).collect();
        floats.resize(self.lengths.existing, [0.0; 6]);
        counts.resize(self.lengths.existing_counts, [0; 2]);
        (floats, counts)
    }

    fn config(&self) -> Config {
        let c = &self.case;
        Config {
            deck_size: c.deck_size,
            learn_span: c.learn_span,
            max_cost_perday: c.max_cost_perday,
            max_ivl: c.max_ivl,
            first_rating_prob: c.first_rating_prob,
            review_rating_prob: c.review_rating_prob,
            learn_limit: c.learn_limit,
            review_limit: c.review_limit,
            new_cards_ignore_review_limit: c.new_cards_ignore_review_limit,
            suspend_after_lapses: c.suspend_after_lapses,
            learning_step_transitions: c.learning_step_transitions,
            relearning_step_transitions: c.relearning_step_transitions,
            state_rating_costs: c.state_rating_costs,
            learning_step_count: c.learning_step_count,
            relearning_step_count: c.relearning_step_count,
        }
    }

    /// The configuration's whole numbers, as a stored run tells them.
    pub fn numbers(&self) -> [u32; 8] {
        let c = &self.case;
        [
            c.deck_size,
            c.learn_span,
            c.learn_limit,
            c.review_limit,
            u32::from(c.new_cards_ignore_review_limit),
            c.suspend_after_lapses,
            c.learning_step_count,
            c.relearning_step_count,
        ]
    }
}

/// The lists that are lent.
#[derive(Clone)]
pub struct Lists {
    pub cards: List<[f32; 6]>,
    pub counts: List<[u32; 2]>,
    pub queue: List<[u64; 2]>,
    pub days: List<[u32; 4]>,
    pub costs: List<f32>,
    pub memorized: List<f32>,
    pub due: List<u32>,
    pub keys: List<[u32; 2]>,
    pub intervals: List<f32>,
}

impl Lists {
    pub fn of(call: &Call) -> Lists {
        let n = &call.lengths;
        let mut keys = List::new(n.keys);
        keys.places_mut().fill(call.poison);
        Lists {
            cards: List::new(n.cards),
            counts: List::new(n.counts),
            queue: List::new(n.queue),
            days: List::new(n.days),
            costs: List::new(n.costs),
            memorized: List::new(n.memorized),
            due: List::new(n.due),
            keys,
            intervals: List::new(n.intervals),
        }
    }

    /// The port's run.
    pub fn simulate(&mut self, call: &Call) -> Answer {
        let c = &call.case;
        let (floats, counts) = call.existing();
        let x = unsafe {
            drill_simulate(
                c.parameters.as_ptr(),
                c.parameters.len(),
                floats.as_ptr(),
                floats.len(),
                counts.as_ptr(),
                counts.len(),
                call.config(),
                c.desired_retention,
                c.seed,
                self.cards.places_mut().as_mut_ptr(),
                self.cards.places().len(),
                self.counts.places_mut().as_mut_ptr(),
                self.counts.places().len(),
                self.queue.places_mut().as_mut_ptr(),
                self.queue.places().len(),
                self.days.places_mut().as_mut_ptr(),
                self.days.places().len(),
                self.costs.places_mut().as_mut_ptr(),
                self.costs.places().len(),
                self.memorized.places_mut().as_mut_ptr(),
                self.memorized.places().len(),
                self.due.places_mut().as_mut_ptr(),
                self.due.places().len(),
                self.keys.places_mut().as_mut_ptr(),
                self.keys.places().len(),
                self.intervals.places_mut().as_mut_ptr(),
                self.intervals.places().len(),
            )
        };
        [x.refusal.into(), x.second.into(), x.turns.into(), x.cards.into(), x.draws, x.queued.into(), x.list.into()]
    }

    /// The port's search: number, second number, rounds, and the list of refusal 6; the retention found and its mean.
    pub fn search(&mut self, call: &Call, rounds: u32) -> ([u32; 4], [f32; 2]) {
        let c = &call.case;
        let (floats, counts) = call.existing();
        let x = unsafe {
            drill_optimal_retention(
                c.parameters.as_ptr(),
                c.parameters.len(),
                floats.as_ptr(),
                floats.len(),
                counts.as_ptr(),
                counts.len(),
                call.config(),
                rounds,
                self.cards.places_mut().as_mut_ptr(),
                self.cards.places().len(),
                self.counts.places_mut().as_mut_ptr(),
                self.counts.places().len(),
                self.queue.places_mut().as_mut_ptr(),
                self.queue.places().len(),
                self.days.places_mut().as_mut_ptr(),
                self.days.places().len(),
                self.costs.places_mut().as_mut_ptr(),
                self.costs.places().len(),
                self.memorized.places_mut().as_mut_ptr(),
                self.memorized.places().len(),
                self.due.places_mut().as_mut_ptr(),
                self.due.places().len(),
                self.keys.places_mut().as_mut_ptr(),
                self.keys.places().len(),
                self.intervals.places_mut().as_mut_ptr(),
                self.intervals.places().len(),
            )
        };
        ([x.refusal, x.second, x.rounds, x.list], [x.retention, x.mean])
    }

    /// Whether every place but those that a run of so many cards and days may write is as it was lent; of the interval table
    /// a run may write every place.
    fn spared(&self, call: &Call, cards: usize, span: usize, places: usize) -> bool {
        self.cards.marked_but(cards)
            && self.counts.marked_but(cards)
            && self.queue.marked_but(cards)
            && self.days.marked_but(span)
            && self.costs.marked_but(span)
            && self.memorized.marked_but(span)
            && self.due.marked_but(span + span / 2)
            && self.keys.marked_but(self.keys.places().len())
            && self.keys.places().iter().skip(places).all(|k| *k == call.poison)
            && self.intervals.marked_but(places)
    }

    /// What the port's run left.
    pub fn result(&self, call: &Call, answer: Answer) -> Result {
        let [number, second, turns, cards, draws, queued, list] = answer;
        if (1..=6).contains(&number) {
            let spared = self.spared(call, 0, 0, 0);
            let (cards, queued, list) = (cards as u32, queued as u32, list as u32);
            return Result { turns, cards, queued, list, spared, ..Result::refused(draws, number as u32, second as u32) };
        }
        let (deck, span) = (cards as usize, call.case.learn_span as usize);
        Result {
            number: number as u32,
            second: second as u32,
            turns,
            cards: cards as u32,
            queued: queued as u32,
            list: list as u32,
            draws,
            floats: self.cards.first(deck).iter().map(|row| row.map(bits)).collect(),
            counts: self.counts.first(deck).to_vec(),
            queue: self.queue.first(deck.min(queued as usize)).to_vec(),
            days: self.days.first(span).to_vec(),
            costs: self.costs.first(span).iter().map(|x| bits(*x)).collect(),
            memorized: self.memorized.first(span).iter().map(|x| bits(*x)).collect(),
            due: self.due.first(span + span / 2).to_vec(),
            table: held(self.keys.places(), self.intervals.places()),
            spared: self.spared(call, deck, span, call.lengths.keys),
        }
    }
}

//! The C functions of include/street_drill.h that this crate calls; all of its unsafe code, and all that knows the
//! places of their arguments and answers.
#![allow(unsafe_code)]
use crate::config::SimulatorConfig;
use crate::error::Refused;
use crate::lists::{Inputs, Lists};
use crate::search::Optimum;

/// `struct drill_config`.
#[repr(C)]
#[derive(Clone, Copy)]
struct Config {
    deck_size: u32,
    learn_span: u32,
    max_cost_perday: f32,
    max_ivl: f32,
    first_rating_prob: [f32; 4],
    review_rating_prob: [f32; 3],
    learn_limit: u32,
    review_limit: u32,
    new_cards_ignore_review_limit: bool,
    suspend_after_lapses: u32,
    learning_step_transitions: [[f32; 4]; 3],
    relearning_step_transitions: [[f32; 4]; 3],
    state_rating_costs: [[f32; 4]; 3],
    learning_step_count: u32,
    relearning_step_count: u32,
}

/// `struct drill_answer`.
#[repr(C)]
struct Answer {
    refusal: u32,
    second: u32,
    list: u32,
    turns: u32,
    cards: u32,
    queued: u32,
    draws: u64,
}

/// `struct drill_found`.
#[repr(C)]
struct Found {
    refusal: u32,
    second: u32,
    list: u32,
    rounds: u32,
    retention: f32,
    mean: f32,
}

/// `struct drill_brent`.
#[repr(C)]
#[derive(Clone, Copy)]
struct Brent {
    a: f32,
    b: f32,
    x: f32,
    v: f32,
    w: f32,
    fx: f32,
    fv: f32,
    fw: f32,
    deltax: f32,
    rat: f32,
    done: u32,
}

/// A search that is under way: `struct drill_search`.
#[repr(C)]
#[derive(Clone, Copy)]
pub struct Stepper {
    begun: bool,
    rounds: u32,
    state: Brent,
}

// SAFETY: the declarations are those of include/street_drill.h. Rows of lists are arrays of as many numbers as its
// structs have, and lie in memory alike; a usize stands for its size_t. The functions marked safe take numbers only,
// and by their contracts take every value of these.
unsafe extern "C" {
    fn drill_simulate(
        parameters: *const f32,
        parameters_len: usize,
        existing_cards: *const [f32; 6],
        existing_cards_len: usize,
        existing_counts: *const [u32; 2],
        existing_counts_len: usize,
        config: Config,
        desired_retention: f32,
        seed: u64,
        cards: *mut [f32; 6],
        cards_len: usize,
        counts: *mut [u32; 2],
        counts_len: usize,
        queue: *mut [u64; 2],
        queue_len: usize,
        days: *mut [u32; 4],
        days_len: usize,
        costs: *mut f32,
        costs_len: usize,
        memorized: *mut f32,
        memorized_len: usize,
        due: *mut u32,
        due_len: usize,
        keys: *mut [u32; 2],
        keys_len: usize,
        intervals: *mut f32,
        intervals_len: usize,
    ) -> Answer;
    fn drill_optimal_retention(
        parameters: *const f32,
        parameters_len: usize,
        existing_cards: *const [f32; 6],
        existing_cards_len: usize,
        existing_counts: *const [u32; 2],
        existing_counts_len: usize,
        config: Config,
        rounds: u32,
        cards: *mut [f32; 6],
        cards_len: usize,
        counts: *mut [u32; 2],
        counts_len: usize,
        queue: *mut [u64; 2],
        queue_len: usize,
        days: *mut [u32; 4],
        days_len: usize,
        costs: *mut f32,
        costs_len: usize,
        memorized: *mut f32,
        memorized_len: usize,
        due: *mut u32,
        due_len: usize,
        keys: *mut [u32; 2],
        keys_len: usize,
        intervals: *mut f32,
        intervals_len: usize,
    ) -> Found;
    fn drill_target(span: u32, costs: *const f32, costs_len: usize, memorized: *const f32, memorized_len: usize)
    -> f32;
    fn drill_mean(targets: *const f32, targets_len: usize, n: u32) -> f32;
    safe fn drill_sample_size(span: u32) -> u32;
    safe fn drill_search_start(rounds: u32) -> Stepper;
    safe fn drill_search_next(s: Stepper) -> f32;
    safe fn drill_search_take(s: Stepper, mean: f32) -> Stepper;
    safe fn drill_search_answer(s: Stepper) -> u32;
}

/// Calls `drill_simulate` or `drill_optimal_retention`: both have the inputs first, then arguments of their own, and
/// the lists that are written.
macro_rules! call {
    ($function:ident, $inputs:expr, ($($own:expr),+), $lists:expr) => {
        $function(
            $inputs.parameters.as_ptr(),
            $inputs.parameters.len(),
            $inputs.existing_cards.as_ptr(),
            $inputs.existing_cards.len(),
            $inputs.existing_counts.as_ptr(),
            $inputs.existing_counts.len(),
            config_of($inputs.config),
            $($own,)+
            $lists.cards.as_mut_ptr(),
            $lists.cards.len(),
            $lists.counts.as_mut_ptr(),
            $lists.counts.len(),
            $lists.queue.as_mut_ptr(),
            $lists.queue.len(),
            $lists.days.as_mut_ptr(),
            $lists.days.len(),
            $lists.costs.as_mut_ptr(),
            $lists.costs.len(),
            $lists.memorized.as_mut_ptr(),
            $lists.memorized.len(),
            $lists.due.as_mut_ptr(),
            $lists.due.len(),
            $lists.keys.as_mut_ptr(),
            $lists.keys.len(),
            $lists.intervals.as_mut_ptr(),
            $lists.intervals.len(),
        )
    };
}

/// A number as the u32 that the library takes. One that is too great for it is refused as the greatest u32 is (deck,
/// span), or is as good as that one: a limit above the largest deck is none, and of learning steps no event makes more
/// than five.
fn number(x: usize) -> u32 {
    u32::try_from(x).unwrap_or(u32::MAX)
}

fn config_of(config: &SimulatorConfig) -> Config {
    Config {
        deck_size: number(config.deck_size),
        learn_span: number(config.learn_span),
        max_cost_perday: config.max_cost_perday,
        max_ivl: config.max_ivl,
        first_rating_prob: config.first_rating_prob,
        review_rating_prob: config.review_rating_prob,
        learn_limit: number(config.learn_limit),
        review_limit: number(config.review_limit),
        new_cards_ignore_review_limit: config.new_cards_ignore_review_limit,
        suspend_after_lapses: config.suspend_after_lapses.unwrap_or(u32::MAX),
        learning_step_transitions: config.learning_step_transitions,
        relearning_step_transitions: config.relearning_step_transitions,
        state_rating_costs: config.state_rating_costs,
        learning_step_count: number(config.learning_step_count),
        relearning_step_count: number(config.relearning_step_count),
    }
}

/// What the answer of a run that ended tells besides its lists.
pub struct Ended {
    pub turns: u64,
    pub cards: usize,
    pub draws: u64,
}

/// A run over the lists.
pub fn simulate(inputs: &Inputs, desired_retention: f32, seed: u64, lists: &mut Lists) -> Result<Ended, Refused> {
    // SAFETY: each list is given with its own length; the lists that are written are vectors of their own, borrowed for
    // the call alone, and so overlap nothing.
    let answer = unsafe { call!(drill_simulate, inputs, (desired_retention, seed), lists) };
    Refused::check(answer.refusal, answer.second)?;
    Ok(Ended { turns: answer.turns.into(), cards: answer.cards as usize, draws: answer.draws })
}

/// A whole search over the lists.
pub fn optimal_retention(inputs: &Inputs, rounds: u32, lists: &mut Lists) -> Result<Optimum, Refused> {
    // SAFETY: as of `simulate`.
    let found = unsafe { call!(drill_optimal_retention, inputs, (rounds), lists) };
    Refused::check(found.refusal, found.second)?;
    Ok(Optimum { retention: found.retention, mean: found.mean, rounds: found.rounds })
}

/// How many runs a trial has.
pub fn sample_size(inputs: &Inputs) -> usize {
    drill_sample_size(number(inputs.config.learn_span)) as usize
}

/// What a run that left these lists costs for each card memorized on its last day.
pub fn target(inputs: &Inputs, lists: &Lists) -> f32 {
    let span = number(inputs.config.learn_span);
    // SAFETY: both lists are given with their own lengths, and are only read.
    unsafe {
        drill_target(span, lists.costs.as_ptr(), lists.costs.len(), lists.memorized.as_ptr(), lists.memorized.len())
    }
}

/// The mean of a trial's targets.
pub fn mean(targets: &[f32]) -> f32 {
    // SAFETY: the list is given with its own length, and is only read.
    unsafe { drill_mean(targets.as_ptr(), targets.len(), targets.len() as u32) }
}

impl Stepper {
    pub fn start(rounds: u32) -> Stepper {
        drill_search_start(rounds)
    }

    /// The retention to try, as long as there is one.
    pub fn next_retention(self) -> Option<f32> {
        Some(drill_search_next(self)).filter(|retention| !retention.is_nan())
    }

    pub fn take_mean(&mut self, mean: f32) {
        *self = drill_search_take(*self, mean);
    }

    /// Of a search that has nothing more to try.
    pub fn answer(self) -> Result<Optimum, Refused> {
        Refused::check(drill_search_answer(self), self.state.done)?;
        Ok(Optimum { retention: self.state.x, mean: self.state.fx, rounds: self.state.done })
    }
}

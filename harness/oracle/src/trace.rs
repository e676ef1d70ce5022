//! What a run of `ours` leaves besides its published results, and what it is told beforehand.
use std::cell::{Cell, RefCell};

/// The lists of a run as the port has them. `table` and `queue` are the entries in use, the queue in heap order.
#[derive(Clone, Debug, Default)]
pub struct Trace {
    pub learned: u64,
    pub reviewed: u64,
    pub put_off: u64,
    pub retired: u64,
    pub stopped: Option<(u32, u32)>,
    pub cards: Vec<([f32; 6], [u32; 2])>,
    pub days: Vec<[u32; 4]>,
    pub costs: Vec<f32>,
    pub memorized: Vec<f32>,
    pub due: Vec<u32>,
    pub table: Vec<([i32; 2], f32)>,
    pub queue: Vec<(i32, bool, i32, u32)>,
    pub draws: u64,
    pub drawn: u64,
    pub places: usize,
    most_turns: u64,
}

thread_local! {
    static MOST_TURNS: Cell<u64> = const { Cell::new(u64::MAX) };
    static PLACES: Cell<usize> = const { Cell::new(usize::MAX) };
    static ROUNDS: Cell<i32> = const { Cell::new(64) };
    static ROUNDS_DONE: Cell<i32> = const { Cell::new(0) };
    static RUNS: Cell<u64> = const { Cell::new(0) };
    static RETENTION: Cell<f32> = const { Cell::new(0.0) };
    static TRIALS: RefCell<Vec<(f32, f32)>> = const { RefCell::new(Vec::new()) };
    static LAST: RefCell<Trace> = RefCell::new(Trace::default());
}

impl Trace {
    pub fn begin() -> Trace {
        Trace { places: PLACES.get(), most_turns: MOST_TURNS.get(), ..Trace::default() }
    }

    pub fn turns(&self) -> u64 {
        self.learned + self.reviewed + self.put_off + self.retired
    }

    pub fn is_over(&self) -> bool {
        self.turns() == self.most_turns
    }

    pub fn stop(&mut self, number: u32, card: usize) {
        self.stopped = Some((number, card as u32));
    }

    /// Keeps the trace; whether the run was stopped by a refusal.
    pub fn end(self) -> bool {
        let stopped = self.stopped.is_some();
        RUNS.set(RUNS.get() + 1);
        LAST.set(self);
        stopped
    }
}

/// Sets the interval table's length, and the number of turns after which the run breaks off.
pub fn limit(places: usize, most_turns: u64) {
    PLACES.set(places);
    MOST_TURNS.set(most_turns);
}

pub fn last() -> Trace {
    LAST.with_borrow(Trace::clone)
}

pub(crate) fn begin_trial(retention: f32) {
    RETENTION.set(retention);
    RUNS.set(0);
}

pub(crate) fn end_trial(mean: f32) -> f32 {
    TRIALS.with_borrow_mut(|all| all.push((RETENTION.get(), mean)));
    mean
}

/// The retentions that a search has tried, each with its mean, since this was last asked.
pub fn trials() -> Vec<(f32, f32)> {
    TRIALS.take()
}

/// The retention of the last trial, and how many of its runs were made.
pub fn last_trial() -> (f32, u64) {
    (RETENTION.get(), RUNS.get())
}

pub fn set_rounds(rounds: i32) {
    ROUNDS.set(rounds);
}

pub(crate) fn rounds() -> i32 {
    ROUNDS.get()
}

pub(crate) fn set_rounds_done(rounds: i32) {
    ROUNDS_DONE.set(rounds);
}

pub fn rounds_done() -> i32 {
    ROUNDS_DONE.get()
}

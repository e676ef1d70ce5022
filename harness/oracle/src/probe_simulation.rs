// Inside the patched simulation.rs: what is private there, and the run and the search on a case.
use super::*;
use crate::case::{Case, limit_of, rows_of};

pub fn card_rows(c: &Card) -> ([f32; 6], [u32; 2]) {
    ([c.difficulty, c.stability, c.last_date, c.due, c.interval, c.desired_retention], [c.reps, c.lapses])
}

pub(super) fn table_rows(cache: Option<&CertifiedIntervalCache>) -> Vec<([i32; 2], f32)> {
    let mut rows: Vec<_> = cache
        .iter()
        .flat_map(|c| c.intervals.iter())
        .map(|(k, &v)| ([k.log_stability_bucket, k.desired_retention_bucket], v))
        .collect();
    rows.sort_by_key(|row| row.0);
    rows
}

pub(super) fn queue_rows(q: &CardPriorityQueue) -> Vec<(i32, bool, i32, u32)> {
    q.heap
        .iter()
        .map(|&c| {
            let Reverse((day, new, priority)) = q.priorities[c];
            (day, new, priority, c as u32)
        })
        .collect()
}

pub struct Queue(CardPriorityQueue);

impl Queue {
    pub fn new(cards: usize) -> Queue {
        Queue(CardPriorityQueue::with_capacity(cards))
    }

    pub fn push(&mut self, card: usize, day: i32, new: bool, priority: i32) {
        self.0.push(card, Reverse((day, new, priority)));
    }

    pub fn peek(&self) -> Option<usize> {
        self.0.peek_index()
    }

    pub fn pop(&mut self) {
        self.0.pop();
    }

    pub fn change(&mut self, card: usize, day: i32, new: bool, priority: i32) {
        self.0.change_priority(card, Reverse((day, new, priority)));
    }

    pub fn rows(&self) -> Vec<(i32, bool, i32, u32)> {
        queue_rows(&self.0)
    }
}

pub fn priority(difficulty: f32) -> i32 {
    ReviewPriorityFn::default()(&card(&[], &([difficulty, 0.0, 0.0, 0.0, 0.0, 0.0], [0, 0])))
}

pub fn bucket(value: f32, step: f32) -> i32 {
    bucket_index(value, step)
}

pub fn stability_bucket(stability: f32) -> i32 {
    let mut cache = Table::new();
    cache.scheduled(&[0.5; 34], stability, 0.5, 36500.0);
    cache.rows()[0].0[0]
}

pub fn retention_bucket(retention: f32) -> i32 {
    bucket_index(retention, CERTIFIED_INTERVAL_CACHE_DR_STEP)
}

pub fn certifies(w: &[f32], stability: f32, retention: f32, interval: f32, most: f32) -> bool {
    certifies_rounded_interval(simulated_fsrs(w), w, stability, retention, fsrs7_runtime(w).as_ref(), interval, most)
}

pub struct Table(CertifiedIntervalCache);

impl Table {
    pub fn new() -> Table {
        Table(CertifiedIntervalCache::new())
    }

    pub fn scheduled(&mut self, w: &[f32], stability: f32, retention: f32, most: f32) -> f32 {
        self.0.scheduled_interval(simulated_fsrs(w), w, stability, retention, fsrs7_runtime(w).as_ref(), most)
    }

    pub fn rows(&self) -> Vec<([i32; 2], f32)> {
        table_rows(Some(&self.0))
    }

    pub fn remove(&mut self, key: [i32; 2]) {
        self.0.intervals.remove(&CertifiedIntervalCacheKey { log_stability_bucket: key[0], desired_retention_bucket: key[1] });
    }
}

fn card(w: &[f32], row: &([f32; 6], [u32; 2])) -> Card {
    let ([difficulty, stability, last_date, due, interval, desired_retention], [reps, lapses]) = *row;
    Card {
        id: 0,
        difficulty,
        stability,
        last_date,
        due,
        interval,
        reps,
        lapses,
        desired_retention,
        parameters: Arc::new(w.to_vec()),
    }
}

fn config(c: &Case) -> SimulatorConfig {
    SimulatorConfig {
        deck_size: c.deck_size as usize,
        learn_span: c.learn_span as usize,
        max_cost_perday: c.max_cost_perday,
        max_ivl: c.max_ivl,
        first_rating_prob: c.first_rating_prob,
        review_rating_prob: c.review_rating_prob,
        learn_limit: limit_of(c.learn_limit),
        review_limit: limit_of(c.review_limit),
        new_cards_ignore_review_limit: c.new_cards_ignore_review_limit,
        suspend_after_lapses: (c.suspend_after_lapses != u32::MAX).then_some(c.suspend_after_lapses),
        post_scheduling_fn: None,
        review_priority_fn: None,
        review_rating_cost_fn: None,
        learning_step_transitions: rows_of(&c.learning_step_transitions),
        relearning_step_transitions: rows_of(&c.relearning_step_transitions),
        state_rating_costs: rows_of(&c.state_rating_costs),
        learning_step_count: c.learning_step_count as usize,
        relearning_step_count: c.relearning_step_count as usize,
    }
}

fn existing(c: &Case) -> Vec<Card> {
    c.existing.iter().map(|row| card(&c.parameters, row)).collect()
}

pub fn run(c: &Case) -> Result<SimulationResult> {
    simulate(&config(c), &c.parameters, c.desired_retention, Some(c.seed), Some(existing(c)))
}

pub fn search(c: &Case) -> Result<f32> {
    optimal_retention(&config(c), &c.parameters, |_| true, Some(existing(c)), None)
}

pub fn init_stability(w: &[f32], rating: usize) -> f32 {
    init_s(w, rating)
}

//! The C functions of include/street_drill.h on numbers and on the queue and the interval table; the run is in lent.rs.

/// `struct drill_brent`.
#[repr(C)]
#[derive(Clone, Copy, Debug)]
pub struct Brent {
    pub a: f32,
    pub b: f32,
    pub x: f32,
    pub v: f32,
    pub w: f32,
    pub fx: f32,
    pub fv: f32,
    pub fw: f32,
    pub deltax: f32,
    pub rat: f32,
    pub done: u32,
}

/// `struct drill_search`.
#[repr(C)]
#[derive(Clone, Copy)]
pub struct Search {
    pub begun: bool,
    pub rounds: u32,
    pub state: Brent,
}

unsafe extern "C" {
    pub safe fn drill_exp(x: f32) -> f32;
    pub safe fn drill_ln(x: f32) -> f32;
    pub safe fn drill_powf(x: f32, y: f32) -> f32;
    pub safe fn drill_is_finite(x: f32) -> bool;
    pub safe fn drill_abs(x: f32) -> f32;
    pub safe fn drill_max(x: f32, y: f32) -> f32;
    pub safe fn drill_min(x: f32, y: f32) -> f32;
    pub safe fn drill_clamp(x: f32, lo: f32, hi: f32) -> f32;
    pub safe fn drill_to_i32(x: f32) -> i32;
    pub safe fn drill_to_u32(x: f32) -> u32;
    pub safe fn drill_pack(negative: bool, m: u64, e: u32) -> f32;
    pub safe fn drill_round(x: f32) -> f32;
    pub safe fn drill_mul_add(x: f32, y: f32, z: f32) -> f32;
    pub safe fn drill_next(state: &mut u64) -> u64;
    pub safe fn drill_word(output: u64) -> u32;
    pub safe fn drill_recalled(chance: f32, word: u32) -> bool;
    pub safe fn drill_bucket_index(value: f32, step: f32) -> u32;
    pub safe fn drill_stability_bucket(stability: f32) -> u32;
    pub safe fn drill_retention_bucket(retention: f32) -> u32;
    pub safe fn drill_card_priority(day: u32, new: bool, difficulty: f32) -> u64;
    fn drill_weighted_index(weights: *const f32, len: usize, word: u32) -> usize;
    fn drill_init_stability(w: *const f32, len: usize, rating: u32) -> f32;
    fn drill_init_difficulty(w: *const f32, len: usize, rating: u32) -> f32;
    fn drill_next_difficulty(w: *const f32, len: usize, d: f32, rating: u32, retention: f32) -> f32;
    fn drill_stability_after_success(w: *const f32, len: usize, s: f32, r: f32, d: f32, rating: u32) -> f32;
    fn drill_stability_after_failure(w: *const f32, len: usize, s: f32, r: f32, d: f32) -> f32;
    fn drill_stability_short_term(w: *const f32, len: usize, s: f32, r: f32, d: f32, rating: u32) -> f32;
    fn drill_forgetting_curve(w: *const f32, len: usize, t: f32, s: f32) -> f32;
    fn drill_forgetting_curve_for_state(w: *const f32, len: usize, t: f32, s: f32, d: f32, fast: f32) -> f32;
    fn drill_forgetting_curve_and_derivative(w: *const f32, len: usize, t: f32, s: f32, d: f32, fast: f32, derivative: &mut f32) -> f32;
    fn drill_next_interval_bisection(w: *const f32, len: usize, s: f32, d: f32, fast: f32, desired: f32) -> f32;
    fn drill_next_interval_for_state(w: *const f32, len: usize, s: f32, d: f32, fast: f32, desired: f32) -> f32;
    fn drill_next_interval(w: *const f32, len: usize, s: f32, desired: f32) -> f32;
    fn drill_scheduled(w: *const f32, len: usize, s: f32, desired: f32, largest: f32) -> f32;
    fn drill_certifies_rounded_interval(w: *const f32, len: usize, s: f32, r: f32, interval: f32, most: f32) -> bool;
    fn drill_scheduled_interval(
        w: *const f32,
        len: usize,
        s: f32,
        r: f32,
        most: f32,
        keys: *mut [u32; 2],
        keys_len: usize,
        intervals: *mut f32,
        intervals_len: usize,
    ) -> f32;
    fn drill_clear(intervals: *mut f32, len: usize);
    fn drill_push(rows: *mut [u64; 2], rows_len: usize, len: u32, card: u32, key: u64) -> u32;
    fn drill_peek_index(rows: *const [u64; 2], rows_len: usize, len: u32) -> u32;
    fn drill_pop(rows: *mut [u64; 2], rows_len: usize, len: u32) -> u32;
    fn drill_change_front(rows: *mut [u64; 2], rows_len: usize, len: u32, key: u64);
    pub safe fn drill_sample_size(span: u32) -> u32;
    fn drill_target(span: u32, costs: *const f32, costs_len: usize, memorized: *const f32, memorized_len: usize) -> f32;
    fn drill_mean(targets: *const f32, targets_len: usize, n: u32) -> f32;
    pub safe fn drill_search_start(rounds: u32) -> Search;
    pub safe fn drill_search_next(s: Search) -> f32;
    pub safe fn drill_search_take(s: Search, mean: f32) -> Search;
    pub safe fn drill_search_answer(s: Search) -> u32;
}

pub fn target(span: u32, costs: &[f32], memorized: &[f32]) -> f32 {
    unsafe { drill_target(span, costs.as_ptr(), costs.len(), memorized.as_ptr(), memorized.len()) }
}

pub fn mean(targets: &[f32]) -> f32 {
    unsafe { drill_mean(targets.as_ptr(), targets.len(), targets.len() as u32) }
}

pub fn rating(weights: &[f32], word: u32) -> usize {
    unsafe { drill_weighted_index(weights.as_ptr(), weights.len(), word) }
}

pub fn init_stability(w: &[f32], rating: u32) -> f32 {
    unsafe { drill_init_stability(w.as_ptr(), w.len(), rating) }
}

pub fn init_difficulty(w: &[f32], rating: u32) -> f32 {
    unsafe { drill_init_difficulty(w.as_ptr(), w.len(), rating) }
}

pub fn next_difficulty(w: &[f32], d: f32, rating: u32, retention: f32) -> f32 {
    unsafe { drill_next_difficulty(w.as_ptr(), w.len(), d, rating, retention) }
}

pub fn stability_after_success(w: &[f32], s: f32, r: f32, d: f32, rating: u32) -> f32 {
    unsafe { drill_stability_after_success(w.as_ptr(), w.len(), s, r, d, rating) }
}

pub fn stability_after_failure(w: &[f32], s: f32, r: f32, d: f32) -> f32 {
    unsafe { drill_stability_after_failure(w.as_ptr(), w.len(), s, r, d) }
}

pub fn stability_short_term(w: &[f32], s: f32, r: f32, d: f32, rating: u32) -> f32 {
    unsafe { drill_stability_short_term(w.as_ptr(), w.len(), s, r, d, rating) }
}

pub fn forgetting_curve(w: &[f32], t: f32, s: f32) -> f32 {
    unsafe { drill_forgetting_curve(w.as_ptr(), w.len(), t, s) }
}

pub fn forgetting_curve_for_state(w: &[f32], t: f32, s: f32, d: f32, fast: f32) -> f32 {
    unsafe { drill_forgetting_curve_for_state(w.as_ptr(), w.len(), t, s, d, fast) }
}

pub fn forgetting_curve_and_derivative(w: &[f32], t: f32, s: f32, d: f32, fast: f32) -> (f32, f32) {
    let mut derivative = 0.0;
    let r = unsafe { drill_forgetting_curve_and_derivative(w.as_ptr(), w.len(), t, s, d, fast, &mut derivative) };
    (r, derivative)
}

pub fn next_interval_bisection(w: &[f32], s: f32, d: f32, fast: f32, desired: f32) -> f32 {
    unsafe { drill_next_interval_bisection(w.as_ptr(), w.len(), s, d, fast, desired) }
}

pub fn next_interval_for_state(w: &[f32], s: f32, d: f32, fast: f32, desired: f32) -> f32 {
    unsafe { drill_next_interval_for_state(w.as_ptr(), w.len(), s, d, fast, desired) }
}

pub fn next_interval(w: &[f32], s: f32, desired: f32) -> f32 {
    unsafe { drill_next_interval(w.as_ptr(), w.len(), s, desired) }
}

pub fn scheduled(w: &[f32], s: f32, desired: f32, largest: f32) -> f32 {
    unsafe { drill_scheduled(w.as_ptr(), w.len(), s, desired, largest) }
}

pub fn certifies(w: &[f32], s: f32, r: f32, interval: f32, most: f32) -> bool {
    unsafe { drill_certifies_rounded_interval(w.as_ptr(), w.len(), s, r, interval, most) }
}

pub fn scheduled_interval(w: &[f32], s: f32, r: f32, most: f32, keys: &mut [[u32; 2]], intervals: &mut [f32]) -> f32 {
    unsafe {
        drill_scheduled_interval(w.as_ptr(), w.len(), s, r, most, keys.as_mut_ptr(), keys.len(), intervals.as_mut_ptr(), intervals.len())
    }
}

pub fn clear(intervals: &mut [f32]) {
    unsafe { drill_clear(intervals.as_mut_ptr(), intervals.len()) }
}

pub fn push(rows: &mut [[u64; 2]], len: u32, card: u32, key: u64) -> u32 {
    unsafe { drill_push(rows.as_mut_ptr(), rows.len(), len, card, key) }
}

pub fn peek_index(rows: &[[u64; 2]], len: u32) -> u32 {
    unsafe { drill_peek_index(rows.as_ptr(), rows.len(), len) }
}

pub fn pop(rows: &mut [[u64; 2]], len: u32) -> u32 {
    unsafe { drill_pop(rows.as_mut_ptr(), rows.len(), len) }
}

pub fn change_front(rows: &mut [[u64; 2]], len: u32, key: u64) {
    unsafe { drill_change_front(rows.as_mut_ptr(), rows.len(), len, key) }
}

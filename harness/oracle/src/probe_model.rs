// Inside the patched model_v7.rs: what is private there.
use super::*;

pub fn state(stability: f32, difficulty: f32, stability_fast: f32) -> MemoryState {
    MemoryState { stability, difficulty, stability_fast }
}

pub fn init_difficulty(w: &[f32], rating: usize) -> f32 {
    init_difficulty_scalar(w, rating)
}

pub fn next_difficulty(w: &[f32], d: f32, rating: usize, retention: f32) -> f32 {
    next_difficulty_scalar_for_retention(w, d, rating, retention)
}

pub fn stability_after_success(w: &[f32], s: f32, r: f32, d: f32, rating: usize) -> f32 {
    stability_after_success_scalar(w, s, r, d, rating, 0.0)
}

pub fn stability_after_failure(w: &[f32], s: f32, r: f32, d: f32) -> f32 {
    stability_after_failure_scalar(w, s, r, d, 0.0)
}

pub fn stability_short_term(w: &[f32], s: f32, r: f32, d: f32, rating: usize) -> f32 {
    stability_short_term_scalar(w, s, r, d, rating)
}

pub fn forgetting_curve(w: &[f32], t: f32, s: f32) -> f32 {
    fsrs7_forgetting_curve_scalar(w, t, s)
}

pub fn forgetting_curve_for_state(w: &[f32], t: f32, x: MemoryState) -> f32 {
    fsrs7_forgetting_curve_scalar_for_state(w, t, x)
}

pub fn forgetting_curve_and_derivative(w: &[f32], t: f32, x: MemoryState) -> (f32, f32) {
    fsrs7_forgetting_curve_and_derivative_scalar(w, t, x)
}

pub fn next_interval_bisection(w: &[f32], x: MemoryState, desired: f32) -> f32 {
    fsrs7_next_interval_bisection_scalar_for_state(w, x, desired)
}

pub fn next_interval_for_state(w: &[f32], x: MemoryState, desired: f32) -> f32 {
    fsrs7_next_interval_scalar_for_state(w, x, desired)
}

pub fn next_interval(w: &[f32], s: f32, desired: f32) -> f32 {
    Fsrs7Runtime::new(w).next_interval(s, desired)
}

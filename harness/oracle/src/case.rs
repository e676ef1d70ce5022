//! The inputs of a run, as the port takes them.
#[derive(Clone, Debug, PartialEq)]
pub struct Case {
    pub parameters: Vec<f32>,
    pub deck_size: u32,
    pub learn_span: u32,
    pub max_cost_perday: f32,
    pub max_ivl: f32,
    pub first_rating_prob: [f32; 4],
    pub review_rating_prob: [f32; 3],
    /// 4,294,967,295 is no limit, here and in the next and in `suspend_after_lapses`.
    pub learn_limit: u32,
    pub review_limit: u32,
    pub new_cards_ignore_review_limit: bool,
    pub suspend_after_lapses: u32,
    pub learning_step_transitions: [f32; 12],
    pub relearning_step_transitions: [f32; 12],
    pub state_rating_costs: [f32; 12],
    pub learning_step_count: u32,
    pub relearning_step_count: u32,
    pub desired_retention: f32,
    pub seed: u64,
    pub existing: Vec<([f32; 6], [u32; 2])>,
    /// The interval table's length.
    pub places: usize,
}

pub fn limit_of(n: u32) -> usize {
    if n == u32::MAX { usize::MAX } else { n as usize }
}

pub fn rows_of(t: &[f32; 12]) -> [[f32; 4]; 3] {
    std::array::from_fn(|i| std::array::from_fn(|j| t[4 * i + j]))
}

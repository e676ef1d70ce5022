//! Stands for the policies of cost_adr.rs, which the run does not reach: there is no value of this type.
pub enum CostAdrPolicy {}

impl CostAdrPolicy {
    pub fn evaluator_for_cost_weight(&self, _weight: f32) -> &CostAdrPolicy {
        self
    }

    pub fn evaluate_retention(&self, _stability: f32, _difficulty: f32) -> f32 {
        match *self {}
    }
}

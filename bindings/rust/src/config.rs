//! What a run is given: its configuration and its existing cards, under the names and types of fsrs-rs.

/// The settings of a run. The default is that of fsrs-rs.
///
/// ```
/// let config = street_drill::SimulatorConfig { deck_size: 120, learn_limit: 8, ..Default::default() };
/// assert_eq!((config.learn_span, config.max_cost_perday), (365, 1800.0));
/// ```
#[derive(Clone, Debug, PartialEq)]
pub struct SimulatorConfig {
    /// How many cards the deck has, the existing ones among them: 1 to 65,536.
    pub deck_size: usize,
    /// Days: 1 to 36,500.
    pub learn_span: usize,
    /// Seconds a day; once a day's cost is above it, nothing more is begun on that day. Infinity is no limit.
    pub max_cost_perday: f32,
    /// The longest interval in days: 1 to 36,500.
    pub max_ivl: f32,
    /// Weights of a new card's first rating: again, hard, good, easy.
    pub first_rating_prob: [f32; 4],
    /// Weights of a recalled card's rating: hard, good, easy.
    pub review_rating_prob: [f32; 3],
    /// Most learnings a day; `usize::MAX` is no limit, and with 0 no new card is made.
    pub learn_limit: usize,
    /// Most reviews a day; `usize::MAX` is no limit.
    pub review_limit: usize,
    /// Whether learnings leave the review limit alone; else both together stay within it.
    pub new_cards_ignore_review_limit: bool,
    /// A card with so many lapses or more is retired, so with `Some(0)` every card is; `None` is no limit.
    pub suspend_after_lapses: Option<u32>,
    /// Weights of a learning's next rating (again, hard, good, easy), a row by the one before it: again, hard, good.
    pub learning_step_transitions: [[f32; 4]; 3],
    /// The same after a lapse.
    pub relearning_step_transitions: [[f32; 4]; 3],
    /// Seconds that a rating costs (again, hard, good, easy), a row each for learning, review and relearning.
    pub state_rating_costs: [[f32; 4]; 3],
    /// When the steps after a learning's first rating end: at so many ratings of 3 since the start or the last 1 (a 2
    /// changes nothing). They end at a 4 too, and after five steps. A learning that begins with a 3 needs one 3 fewer,
    /// also after a later 1; one that begins with a 4 has no steps. With 0 there are none.
    pub learning_step_count: usize,
    /// The same for the steps after a lapse, which stands for a rating of 1.
    pub relearning_step_count: usize,
}

impl Default for SimulatorConfig {
    fn default() -> SimulatorConfig {
        SimulatorConfig {
            deck_size: 10_000,
            learn_span: 365,
            max_cost_perday: 1800.0,
            max_ivl: 36_500.0,
            first_rating_prob: [0.24, 0.094, 0.495, 0.171],
            review_rating_prob: [0.224, 0.631, 0.145],
            learn_limit: usize::MAX,
            review_limit: usize::MAX,
            new_cards_ignore_review_limit: true,
            suspend_after_lapses: None,
            learning_step_transitions: [
                [0.3686, 0.0628, 0.5108, 0.0577],
                [0.0442, 0.4553, 0.4457, 0.0549],
                [0.0519, 0.047, 0.8462, 0.055],
            ],
            relearning_step_transitions: [
                [0.2157, 0.0643, 0.6595, 0.0604],
                [0.05, 0.4638, 0.4475, 0.0387],
                [0.1057, 0.1434, 0.7266, 0.0244],
            ],
            state_rating_costs: [
                [19.58, 18.79, 13.78, 10.71],
                [19.38, 17.59, 12.38, 8.94],
                [16.44, 15.25, 12.32, 8.03],
            ],
            learning_step_count: 2,
            relearning_step_count: 1,
        }
    }
}

/// A card. Dates are in days, and the run begins on day 0, so a date before the run is below 0. Of existing cards those
/// are kept whose stability is above 1e-9; the default card, which was never learned, is not.
#[derive(Clone, Copy, Debug, PartialEq)]
pub struct Card {
    /// Difficulty, 1 to 10 where the model gave it.
    pub difficulty: f32,
    /// Stability in days.
    pub stability: f32,
    /// The day of its last event; minus infinity: it was never learned.
    pub last_date: f32,
    /// The day on which it is due.
    pub due: f32,
    /// Days from its last event to its due day.
    pub interval: f32,
    /// The chance of recall at which it is reviewed.
    pub desired_retention: f32,
    /// How often it was learned or reviewed.
    pub reps: u32,
    /// How often it was forgotten at a review: at most 4,000,000,000 of an existing card.
    pub lapses: u32,
}

impl Default for Card {
    fn default() -> Card {
        Card {
            difficulty: f32::NEG_INFINITY,
            stability: f32::NEG_INFINITY,
            last_date: f32::NEG_INFINITY,
            due: f32::NEG_INFINITY,
            interval: f32::NEG_INFINITY,
            desired_retention: 0.9,
            reps: 0,
            lapses: 0,
        }
    }
}

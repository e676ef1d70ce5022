//! The street drill forecast for Rust: how many streets a sorter learns, reviews and holds in memory each day, and what
//! that costs, by the FSRS-7 memory model. The work is done by the proved library behind include/street_drill.h; this
//! crate lends it lists of the needed lengths and gives back what they hold.
//!
//! - [`simulate`]: a [`Forecast`] from a [`SimulatorConfig`], 34 parameters, a retention, a seed and known [`Card`]s;
//! - [`Runner`]: the same for many retentions and seeds, over lists that are kept;
//! - [`optimal_retention`]: the retention at which a street held in the end costs least, as an [`Optimum`];
//! - [`optimal_retention_on_threads`]: the same search with the same answer, a trial's runs on threads;
//! - [`optimal_retention_with_progress`]: the same, which tells each [`Trial`] and ends when it is told to;
//! - [`Error`]: why a call was refused, with the field that it is about.
//!
//! What is promised holds in the default float modes, which Rust itself takes for granted.
//!
//! ```
//! use street_drill::{SimulatorConfig, simulate};
//!
//! let config = SimulatorConfig {
//!     deck_size: 2,
//!     learn_span: 1,
//!     max_cost_perday: 10.0,
//!     first_rating_prob: [0.0, 0.0, 0.0, 1.0],
//!     state_rating_costs: [[8.0; 4]; 3],
//!     ..SimulatorConfig::default()
//! };
//! let forecast = simulate(&config, &[0.5; 34], 0.9, 42, &[])?;
//! assert_eq!((forecast.turns, forecast.cards.len()), (4, 2));
//! assert_eq!((forecast.days[0].learned, forecast.days[0].cost), (2, 16.0));
//! # Ok::<(), street_drill::Error>(())
//! ```
mod blame;
mod config;
mod error;
mod forecast;
mod lists;
mod native;
mod search;

pub use config::{Card, SimulatorConfig};
pub use error::Error;
pub use forecast::{Day, Forecast, Runner, simulate};
pub use search::{
    MOST_ROUNDS, Optimum, Trial, optimal_retention, optimal_retention_on_threads, optimal_retention_with_progress,
};

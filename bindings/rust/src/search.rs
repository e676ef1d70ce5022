//! The search for the retention at which a run costs least for each card memorized in the end: whole, on threads, and
//! told trial by trial.
use crate::blame;
use crate::config::{Card, SimulatorConfig};
use crate::error::{Error, Refused};
use crate::forecast::run;
use crate::lists::{FIRST_PLACES, Inputs, Lists};
use crate::native::{self, Stepper};
use std::num::NonZeroUsize;
use std::ops::ControlFlow;

/// The most rounds that a search may be given. With so many it is the search of fsrs-rs, and never refused for their
/// number: it ends before them, which is proved.
pub const MOST_ROUNDS: u32 = 64;

/// The seed of a trial's first run.
const FIRST_SEED: u64 = 42;

/// What a search found.
#[derive(Clone, Copy, Debug, PartialEq)]
pub struct Optimum {
    /// The retention, from 0.70 to 0.95.
    pub retention: f32,
    /// Its mean cost: seconds of the span for each card memorized on the last day. **Look at it**: a NaN, an
    /// infinity or a number below 0 says that some trial memorized nothing or less, or that its cost or what it
    /// memorized is no finite number, and then the retention means nothing.
    pub mean: f32,
    /// The rounds done.
    pub rounds: u32,
}

/// A retention that was tried.
#[derive(Clone, Copy, Debug, PartialEq)]
pub struct Trial {
    /// Its number, from 1; a search of so many rounds has one trial more at most.
    pub number: u32,
    /// The retention.
    pub retention: f32,
    /// The mean of its runs: seconds of the span for each card memorized on the last day.
    pub mean: f32,
}

/// Searches for the cheapest retention, in at most so many rounds, 1 to [`MOST_ROUNDS`]. Existing cards keep their own
/// retentions.
///
/// ```
/// use street_drill::{MOST_ROUNDS, SimulatorConfig, optimal_retention};
///
/// let config = SimulatorConfig { deck_size: 10, learn_span: 20, ..Default::default() };
/// let found = optimal_retention(&config, &[0.5; 34], &[], MOST_ROUNDS)?;
/// assert!((0.70..=0.95).contains(&found.retention) && found.mean.is_finite());
/// # Ok::<(), street_drill::Error>(())
/// ```
pub fn optimal_retention(
    config: &SimulatorConfig,
    parameters: &[f32],
    existing_cards: &[Card],
    rounds: u32,
) -> Result<Optimum, Error> {
    let inputs = Inputs::new(config, parameters, existing_cards);
    whole(&inputs, rounds, FIRST_PLACES).map_err(|refused| blame::error(refused, &inputs, "rounds"))
}

/// The whole search, made again with a longer interval table for as long as some run's is full.
fn whole(inputs: &Inputs, rounds: u32, places: usize) -> Result<Optimum, Refused> {
    let mut lists = Lists::new(inputs.config, places);
    loop {
        match native::optimal_retention(inputs, rounds, &mut lists) {
            Err(Refused { number: 8, .. }) => lists.lengthen(),
            answer => return answer,
        }
    }
}

/// The same search with the same answer, the runs of a trial on so many threads; it panics where one does not start.
///
/// ```
/// use street_drill::{MOST_ROUNDS, SimulatorConfig, optimal_retention, optimal_retention_on_threads};
///
/// let config = SimulatorConfig { deck_size: 10, learn_span: 20, ..Default::default() };
/// let threads = std::thread::available_parallelism().unwrap_or(std::num::NonZeroUsize::MIN);
/// let found = optimal_retention_on_threads(&config, &[0.5; 34], &[], MOST_ROUNDS, threads)?;
/// assert_eq!(found, optimal_retention(&config, &[0.5; 34], &[], MOST_ROUNDS)?);
/// # Ok::<(), street_drill::Error>(())
/// ```
pub fn optimal_retention_on_threads(
    config: &SimulatorConfig,
    parameters: &[f32],
    existing_cards: &[Card],
    rounds: u32,
    threads: NonZeroUsize,
) -> Result<Optimum, Error> {
    let go_on = |_| ControlFlow::Continue(());
    let found = optimal_retention_with_progress(config, parameters, existing_cards, rounds, threads, go_on)?;
    Ok(found.expect("nothing ended the search"))
}

/// The same search, told trial by trial on the calling thread; there is no answer where `progress` breaks it off.
///
/// ```
/// use std::ops::ControlFlow;
/// use street_drill::{MOST_ROUNDS, SimulatorConfig, optimal_retention_with_progress};
///
/// let config = SimulatorConfig { deck_size: 10, learn_span: 20, ..Default::default() };
/// let one = std::num::NonZeroUsize::MIN;
/// let mut tried = vec![];
/// let found = optimal_retention_with_progress(&config, &[0.5; 34], &[], MOST_ROUNDS, one, |trial| {
///     tried.push(trial.retention);
///     if tried.len() < 2 { ControlFlow::Continue(()) } else { ControlFlow::Break(()) }
/// })?;
/// assert_eq!((found, tried.len(), tried[0]), (None, 2, 0.7));
/// # Ok::<(), street_drill::Error>(())
/// ```
pub fn optimal_retention_with_progress(
    config: &SimulatorConfig,
    parameters: &[f32],
    existing_cards: &[Card],
    rounds: u32,
    threads: NonZeroUsize,
    progress: impl FnMut(Trial) -> ControlFlow<()>,
) -> Result<Option<Optimum>, Error> {
    let inputs = Inputs::new(config, parameters, existing_cards);
    stepped(&inputs, rounds, threads, FIRST_PLACES, progress)
        .map_err(|refused| blame::error(refused, &inputs, "rounds"))
}

/// The search one trial at a time.
fn stepped(
    inputs: &Inputs,
    rounds: u32,
    threads: NonZeroUsize,
    places: usize,
    mut progress: impl FnMut(Trial) -> ControlFlow<()>,
) -> Result<Option<Optimum>, Refused> {
    if !(1..=MOST_ROUNDS).contains(&rounds) {
        // Refused at the entry, which no run of a trial tests: by 4, or by what comes before it in the table.
        return whole(inputs, rounds, places).map(Some);
    }
    let runs = native::sample_size(inputs);
    let mut lists: Vec<Lists> = (0..threads.get().min(runs)).map(|_| Lists::new(inputs.config, places)).collect();
    let mut search = Stepper::start(rounds);
    for number in 1.. {
        let Some(retention) = search.next_retention() else { break };
        let mean = native::mean(&trial(inputs, retention, runs, &mut lists)?);
        search.take_mean(mean);
        if progress(Trial { number, retention, mean }).is_break() {
            return Ok(None);
        }
    }
    search.answer().map(Some)
}

/// The targets of a trial's runs in the order of their seeds, or the refusal of the first that is refused; a thread for
/// each of the lists, with neighbouring seeds.
fn trial(inputs: &Inputs, retention: f32, runs: usize, lists: &mut [Lists]) -> Result<Vec<f32>, Refused> {
    let part = runs.div_ceil(lists.len());
    let mut targets = vec![Ok(0.0); runs];
    std::thread::scope(|scope| {
        for (i, (targets, lists)) in targets.chunks_mut(part).zip(lists).enumerate() {
            let first_seed = FIRST_SEED + (i * part) as u64;
            scope.spawn(move || {
                for (seed, target) in (first_seed..).zip(targets) {
                    *target = run(inputs, retention, seed, lists).map(|_| native::target(inputs, lists));
                    if target.is_err() {
                        break;
                    }
                }
            });
        }
    });
    targets.into_iter().collect()
}

#[cfg(test)]
mod tests {
    use super::*;

    /// Whole and on threads, from a table that is too short on, the answer is the same.
    #[test]
    fn a_short_table_is_made_longer() {
        let config = SimulatorConfig { deck_size: 20, learn_span: 40, ..Default::default() };
        let inputs = Inputs::new(&config, &[0.5; 34], &[]);
        let found = whole(&inputs, MOST_ROUNDS, FIRST_PLACES).unwrap();
        let short = native::optimal_retention(&inputs, MOST_ROUNDS, &mut Lists::new(&config, 1));
        assert_eq!(short.unwrap_err().number, 8);
        assert_eq!(whole(&inputs, MOST_ROUNDS, 1), Ok(found));
        let go_on = |_| ControlFlow::Continue(());
        assert_eq!(stepped(&inputs, MOST_ROUNDS, NonZeroUsize::new(3).unwrap(), 1, go_on), Ok(Some(found)));
    }
}

//! The same numbers as the built programs print for the texts of examples/.
use crate::common::{USUAL, example, float, printed, settings, words};
use std::num::NonZeroUsize;
use std::ops::ControlFlow;
use street_drill::{
    Day, Forecast, MOST_ROUNDS, Optimum, Trial, optimal_retention, optimal_retention_on_threads,
    optimal_retention_with_progress, simulate,
};

/// The head of a listing (days, turns, cards) and its rows.
fn listed(text: &str) -> ([u64; 3], Vec<Day>) {
    let mut lines = text.lines();
    let head = match words(lines.next().expect("a first line"))[..] {
        ["forecast", days, "turns", turns, "cards", cards] => [days, turns, cards].map(|n| n.parse().unwrap()),
        _ => panic!("no forecast: {text}"),
    };
    (head, lines.enumerate().map(|(day, line)| listed_day(day, line)).collect())
}

fn listed_day(day: usize, line: &str) -> Day {
    let n = |word: &str| word.parse().unwrap();
    match words(line)[..] {
        ["day", number, "learn", l, "review", r, "correct", c, "introduced", i, "cost", cost, "held", held] => {
            assert_eq!(number, day.to_string());
            Day {
                learned: n(l),
                reviewed: n(r),
                correct: n(c),
                introduced: n(i),
                cost: float(cost),
                memorized: float(held),
            }
        }
        _ => panic!("no day: {line}"),
    }
}

fn forecast_of(text: &str) -> Forecast {
    let s = settings(text);
    simulate(&s.config, &s.parameters, s.retention, s.seed, &[]).expect("the text is not refused")
}

fn same_as_program(name: &str) {
    let text = example(name);
    let forecast = forecast_of(&text);
    let (head, days) = listed(&printed("forecast", &text));
    assert_eq!(head, [forecast.days.len() as u64, forecast.turns, forecast.cards.len() as u64], "{name}");
    assert_eq!(days, forecast.days, "{name}");
}

#[test]
fn new_round() {
    same_as_program("new_round.txt");
    assert_eq!(settings(&example("new_round.txt")).parameters, USUAL);
}

#[test]
fn daily_limit() {
    same_as_program("daily_limit.txt");
}

#[test]
fn year() {
    same_as_program("year.txt");
}

/// Lists that the program does not print are as long as they must be, and fit the rows.
#[test]
fn what_is_not_printed() {
    let forecast = forecast_of(&example("new_round.txt"));
    assert_eq!(forecast.due.len(), 45);
    let lapses: u32 = forecast.cards.iter().map(|card| card.lapses).sum();
    let forgotten: u32 = forecast.days.iter().map(|day| day.reviewed - day.correct).sum();
    assert_eq!(lapses, forgotten);
    assert!(
        forecast.cards.iter().all(|card| card.due == card.last_date + card.interval && card.desired_retention == 0.9)
    );
}

/// The retention found, its mean and the rounds are those that `cheapest` prints, whole and on threads.
#[test]
fn cheapest() {
    for name in ["new_round.txt", "daily_limit.txt"] {
        let text = example(name);
        let s = settings(&text);
        let line = printed("cheapest", &text);
        let listed = match words(line.trim_end())[..] {
            ["cheapest", w, "rounds", n, "mean", mean] => {
                Optimum { retention: float(w), mean: float(mean), rounds: n.parse().unwrap() }
            }
            _ => panic!("nothing found: {line}"),
        };
        assert_eq!(optimal_retention(&s.config, &s.parameters, &[], MOST_ROUNDS), Ok(listed), "{name}");
        for threads in [1, 2, 7, 1000] {
            let threads = NonZeroUsize::new(threads).unwrap();
            let found = optimal_retention_on_threads(&s.config, &s.parameters, &[], MOST_ROUNDS, threads);
            assert_eq!(found, Ok(listed), "{name} on {threads} threads");
        }
    }
}

/// Each trial is told, the one found among them; and the search ends with the trial at which it is told to.
#[test]
fn progress() {
    let s = settings(&example("new_round.txt"));
    let threads = NonZeroUsize::new(3).unwrap();
    let search = |most: usize| {
        let mut tried: Vec<Trial> = vec![];
        let found = optimal_retention_with_progress(&s.config, &s.parameters, &[], MOST_ROUNDS, threads, |trial| {
            tried.push(trial);
            if tried.len() < most { ControlFlow::Continue(()) } else { ControlFlow::Break(()) }
        });
        (found, tried)
    };
    let (found, tried) = search(usize::MAX);
    let best = optimal_retention(&s.config, &s.parameters, &[], MOST_ROUNDS).unwrap();
    assert_eq!(found, Ok(Some(best)));
    assert!(tried.iter().map(|trial| trial.number).eq(1..=best.rounds + 1));
    assert!(tried.iter().any(|trial| (trial.retention, trial.mean) == (best.retention, best.mean)));
    assert_eq!(search(2), (Ok(None), tried[..2].to_vec()));
}

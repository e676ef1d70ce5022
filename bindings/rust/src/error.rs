//! Refusals, with the numbers of the table in docs/RULES.md.
use std::fmt;

/// The two numbers of a refused answer.
#[derive(Clone, Copy, Debug, PartialEq, Eq)]
pub struct Refused {
    pub number: u32,
    pub second: u32,
}

impl Refused {
    /// The numbers as an answer has them: 0 where nothing was refused.
    pub fn check(number: u32, second: u32) -> Result<(), Refused> {
        if number == 0 { Ok(()) } else { Err(Refused { number, second }) }
    }
}

/// Why a call was refused. Where more than one reason holds, a call tells the first in the order of the table: 1, 2, 3,
/// 4, 2 for too many existing cards, 5; then what a run meets. No call of this crate is refused with [`Error::Lists`],
/// [`Error::TableFull`] or [`Error::DueCount`]: lists are lent at their needed lengths, a full table is made longer,
/// and no run comes to 9, which is proved.
///
/// ```
/// use street_drill::{Error, SimulatorConfig, simulate};
///
/// let refused = simulate(&SimulatorConfig::default(), &[0.5; 33], 0.9, 42, &[]).unwrap_err();
/// assert_eq!(refused, Error::TooFewParameters);
/// assert_eq!((refused.number(), refused.second()), (1, 34));
/// assert_eq!(refused.to_string(), "there are fewer than 34 parameters");
/// ```
#[derive(Clone, Copy, Debug, PartialEq, Eq, Hash)]
pub enum Error {
    /// 1 with 34: there are fewer than 34 parameters.
    TooFewParameters,
    /// 1: a parameter is not finite.
    ParameterNotFinite {
        /// The first such, from 0.
        index: u32,
    },
    /// 2 with 0: the deck is not 1 to 65,536 cards.
    DeckSize,
    /// 2 with 1: there are more existing cards than the deck has.
    TooManyCards,
    /// 3: the span is not 1 to 36,500 days.
    LearnSpan,
    /// 4: a setting, the retention or the most rounds of a search is not as it must be.
    Config {
        /// The first such: a field of [`SimulatorConfig`](crate::SimulatorConfig), `desired_retention` or `rounds`.
        field: &'static str,
    },
    /// 5: an existing card that is kept is not as it must be.
    ExistingCard {
        /// The first such, by its place among the existing cards, from 0.
        place: u32,
        /// The field of [`Card`](crate::Card) that is not.
        field: &'static str,
    },
    /// 6: a list that was lent is too short.
    Lists,
    /// 7: a card is to be reviewed, and its chance of recall is a NaN or not 0 to 1.
    ChanceOutOfRange {
        /// The card, by its place among the run's cards, from 0.
        card: u32,
    },
    /// 8: an interval is to be entered under a new key, and the interval table is full.
    TableFull {
        /// The card that needs one more interval, by its place among the run's cards.
        card: u32,
    },
    /// 9: a due count would fall below 0.
    DueCount {
        /// The card, by its place among the run's cards.
        card: u32,
    },
    /// 10: the search used up its rounds.
    NotFound {
        /// The rounds done.
        rounds: u32,
    },
}

impl Error {
    /// The number in the table of refusals.
    pub fn number(&self) -> u32 {
        match self {
            Error::TooFewParameters | Error::ParameterNotFinite { .. } => 1,
            Error::DeckSize | Error::TooManyCards => 2,
            Error::LearnSpan => 3,
            Error::Config { .. } => 4,
            Error::ExistingCard { .. } => 5,
            Error::Lists => 6,
            Error::ChanceOutOfRange { .. } => 7,
            Error::TableFull { .. } => 8,
            Error::DueCount { .. } => 9,
            Error::NotFound { .. } => 10,
        }
    }

    /// The second number of the table: which parameter, which card, how many rounds; 0 where there is no more to tell.
    pub fn second(&self) -> u32 {
        match *self {
            Error::TooFewParameters => 34,
            Error::TooManyCards => 1,
            Error::DeckSize | Error::LearnSpan | Error::Config { .. } | Error::Lists => 0,
            Error::ParameterNotFinite { index } => index,
            Error::ExistingCard { place, .. } => place,
            Error::ChanceOutOfRange { card } | Error::TableFull { card } | Error::DueCount { card } => card,
            Error::NotFound { rounds } => rounds,
        }
    }

    /// What the two numbers say; the field is asked for where the refusal is about one.
    pub(crate) fn new(refused: Refused, field: impl FnOnce() -> &'static str) -> Error {
        match (refused.number, refused.second) {
            (1, 34) => Error::TooFewParameters,
            (1, index) => Error::ParameterNotFinite { index },
            (2, 0) => Error::DeckSize,
            (2, _) => Error::TooManyCards,
            (3, _) => Error::LearnSpan,
            (4, _) => Error::Config { field: field() },
            (5, place) => Error::ExistingCard { place, field: field() },
            (6, _) => Error::Lists,
            (7, card) => Error::ChanceOutOfRange { card },
            (8, card) => Error::TableFull { card },
            (9, card) => Error::DueCount { card },
            (10, rounds) => Error::NotFound { rounds },
            (number, _) => unreachable!("no answer has the number {number}: the library's contracts"),
        }
    }
}

/// What a field breaks.
fn rule(field: &str) -> &'static str {
    match field {
        "state_rating_costs" => "has a cost that is negative or not finite",
        "max_cost_perday" => "is no number",
        "max_ivl" => "is not 1 to 36,500 days",
        "rounds" => "are not 1 to 64",
        "stability" | "desired_retention" => "is not finite",
        "due" => "is not finite, or beyond 16,777,216 days",
        "last_date" => "is no number, or beyond 16,777,216 days",
        "difficulty" => "is not finite, though there is a last date",
        "lapses" => "are more than 4,000,000,000",
        _ => "has a weight that is negative or not finite, or a row that sums to 0 or to infinity",
    }
}

impl fmt::Display for Error {
    fn fmt(&self, f: &mut fmt::Formatter<'_>) -> fmt::Result {
        match self {
            Error::TooFewParameters => write!(f, "there are fewer than 34 parameters"),
            Error::ParameterNotFinite { index } => write!(f, "parameter {index}, from 0, is not a finite number"),
            Error::DeckSize => write!(f, "the deck is not 1 to 65,536 cards"),
            Error::TooManyCards => write!(f, "there are more existing cards than the deck has"),
            Error::LearnSpan => write!(f, "the span is not 1 to 36,500 days"),
            Error::Config { field } => write!(f, "{field} {}", rule(field)),
            Error::ExistingCard { place, field } => {
                write!(f, "existing card {place}, from 0: {field} {}", rule(field))
            }
            Error::Lists => write!(f, "a list that was lent is too short"),
            Error::ChanceOutOfRange { card } => {
                write!(f, "the chance that card {card} is recalled is not 0 to 1: the parameters make no sense for it")
            }
            Error::TableFull { card } => {
                write!(f, "the interval table is full, and card {card} needs one more interval")
            }
            Error::DueCount { card } => write!(f, "the due count of card {card} would fall below 0"),
            Error::NotFound { rounds } => write!(f, "the search did not end in {rounds} rounds"),
        }
    }
}

impl std::error::Error for Error {}

#[cfg(test)]
mod tests {
    use super::{Error, Refused};

    /// Numbers are told again as they came, for every pair that an answer can have.
    #[test]
    fn numbers_come_back() {
        let entry = [(1, 0), (1, 33), (1, 34), (2, 0), (2, 1), (3, 0), (4, 0), (5, 0), (5, 65_535), (6, 0)];
        for (number, second) in entry.into_iter().chain([(7, 3), (8, 4), (9, 5), (10, 64)]) {
            let error = Error::new(Refused { number, second }, || "max_ivl");
            assert_eq!((error.number(), error.second()), (number, second));
            assert!(!error.to_string().is_empty());
        }
        assert_eq!(Refused::check(0, 0), Ok(()));
    }
}

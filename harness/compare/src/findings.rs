//! What docs/DIFFERENCES.md says of runs that end Ok and look odd: the smallest input of each, on which the port and the Rust are
//! alike, and what it comes to; and what it says of the search, over given means.
use crate::calls::chained;
use crate::cases::usual;
use crate::lent::Call;
use crate::port;
use crate::result::Result;
use crate::runs::{self, compare, report};

type Finding = (&'static str, Call, fn(&Result) -> bool);

/// A street last seen on a day, due on another, of stability 1.
fn street(difficulty: f32, last_date: f32, due: f32) -> ([f32; 6], [u32; 2]) {
    ([difficulty, 1.0, last_date, due, 1.0, 0.9], [1, 0])
}

fn float(bits: u64) -> f32 {
    f32::from_bits(bits as u32)
}

/// Parameter 26 above 1: the curve's second base falls below 0 in time. The street is due behind the span, so it is only retired.
fn not_a_number_held() -> Call {
    let mut c = usual(1, 1);
    c.parameters[26] = 2.0;
    c.existing = vec![street(5.0, -100.0, 1.0)];
    Call::exact("a NaN held", c)
}

/// The curve's first weight below 0: the weighted mean of two chances then lies outside both. The street is only retired, so that no
/// chance is drawn against.
fn held_below_none() -> Call {
    let mut c = usual(1, 1);
    c.parameters[27] = -0.4;
    c.existing = vec![street(5.0, -100.0, 1.0)];
    Call::exact("a held count below 0", c)
}

/// The second weight below 0.
fn held_above_all() -> Call {
    let mut c = usual(1, 1);
    c.parameters[28] = -0.4;
    c.existing = vec![street(5.0, -100.0, 1.0)];
    Call::exact("more held than there are streets", c)
}

fn infinite_cost() -> Call {
    let mut c = usual(2, 1);
    c.state_rating_costs = [3e38; 12];
    c.max_cost_perday = f32::INFINITY;
    Call::exact("an infinite cost", c)
}

/// A lapse at the largest difficulty: a change that is infinite is damped by 0.
fn not_a_number_for_difficulty() -> Call {
    let mut c = usual(1, 1);
    c.parameters[6] = 3e38;
    c.existing = vec![street(10.0, -1e7, 0.0)];
    Call::exact("a NaN for a difficulty", c)
}

fn lapse_limit_of_none() -> Call {
    let mut c = usual(1, 1);
    c.suspend_after_lapses = 0;
    Call::exact("a lapse limit of 0", c)
}

fn all() -> Vec<Finding> {
    let nan = not_a_number_for_difficulty();
    let next = crate::reference::result(&nan);
    vec![
        ("a run that ends Ok holds a NaN", not_a_number_held(), |r| r.number == 0 && float(r.memorized[0]).is_nan()),
        ("a run that ends Ok holds less than nothing", held_below_none(), |r| r.number == 0 && float(r.memorized[0]) < 0.0),
        ("a run that ends Ok holds more than its streets", held_above_all(), |r| r.number == 0 && float(r.memorized[0]) > 1.0),
        ("a day's cost is +infinity, and the day goes on", infinite_cost(), |r| {
            r.number == 0 && float(r.costs[0]) == f32::INFINITY && r.days[0][0] == 2
        }),
        ("a lapse leaves a difficulty that is a NaN", nan.clone(), |r| r.number == 0 && float(r.floats[0][0]).is_nan()),
        ("the deck that it leaves is refused", chained(&nan, &next, false), |r| (r.number, r.second) == (5, 0)),
        ("a lapse limit of 0 retires every street unlearned", lapse_limit_of_none(), |r| {
            r.number == 0 && r.turns == 1 && r.days[0] == [0; 4]
        }),
    ]
}

/// A search by the stepper over given means, by the trial's number and its retention: the retentions tried, and what is told.
fn driven(mean: impl Fn(usize, f32) -> f32) -> (Vec<f32>, port::Brent) {
    let mut search = port::drill_search_start(64);
    let mut tried = vec![];
    loop {
        let u = port::drill_search_next(search);
        if u.is_nan() {
            assert_eq!(port::drill_search_answer(search), 0, "it is found");
            return (tried, search.state);
        }
        tried.push(u);
        search = port::drill_search_take(search, mean(tried.len(), u));
    }
}

/// What docs/DIFFERENCES.md says of the search, over means that show it.
fn of_searches() -> u32 {
    let near = |x: f32, y: f32| (x - y).abs() < 1e-5;
    let bowl = |x: f32| (x - 0.8) * (x - 0.8);
    let (tried, told) = driven(|n, x| if n == 3 { f32::NAN } else { bowl(x) });
    let thrown_away = tried.iter().any(|&x| near(x, 0.7955) && bowl(x) < 3e-5);
    assert!(near(told.x, 0.86828) && told.fx > 4e-3 && thrown_away, "one NaN throws the best trial away: {tried:?} {told:?}");
    let (constant, told) = driven(|_, _| 1.0);
    assert!(near(told.x, 0.93673) && told.done == 6, "equal means move to the newer trial: {told:?}");
    let (falling, told) = driven(|_, x| 1.0 - x);
    assert!(constant == falling && near(told.x, 0.93673), "as falling means do: {falling:?}");
    assert!(falling.iter().all(|&x| x < 0.946), "0.95 is never tried: {falling:?}");
    let (_, told) = driven(|_, x| x);
    assert!(told.x == 0.70 && told.done == 3, "0.70 can be the answer: {told:?}");
    4
}

pub fn main() {
    let findings = all();
    for (name, call, holds) in &findings {
        match compare(&runs::port, call) {
            Ok(result) => assert!(holds(&result), "{name}: it is not so: {result:?}"),
            Err(d) => report(&d),
        }
    }
    println!("findings: {} calls alike and {} searches, each as docs/DIFFERENCES.md says", findings.len(), of_searches());
}

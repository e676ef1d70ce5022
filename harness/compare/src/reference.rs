//! The Rust's result of a call.
use crate::floats::bits;
use crate::lent::Call;
use crate::result::Result;
use crate::rules::faults;
use oracle::ours::simulation::{SimulationResult, probe};
use oracle::trace::{self, Trace};

/// A run that the table's length stops is made again up to its last finished turn, because the Rust writes earlier in a turn.
/// Of a longer list of parameters the Rust is given the first 34.
pub fn result(call: &Call) -> Result {
    if let Some(&(number, second)) = faults(call).first() {
        return Result::refused_at_entry(call, number, second);
    }
    let mut c = call.case.clone();
    c.parameters.truncate(34);
    trace::limit(call.lengths.keys, u64::MAX);
    let published = probe::run(&c);
    let t = trace::last();
    let Some((number, second)) = t.stopped else {
        published_alike(&published.expect("the Rust took the case"), &t);
        return Result::of(&t, t.turns(), 0, 0);
    };
    if number == 7 {
        return Result::of(&t, t.turns(), number, second);
    }
    let finished = t.turns() - 1;
    trace::limit(usize::MAX, finished);
    let _ = probe::run(&c);
    trace::limit(usize::MAX, u64::MAX);
    Result::of(&trace::last(), finished, number, second)
}

/// The trace says what the published results say.
fn published_alike(r: &SimulationResult, t: &Trace) {
    for d in 0..t.days.len() {
        let row = [r.learn_cnt_per_day[d], r.review_cnt_per_day[d], r.correct_cnt_per_day[d], r.introduced_cnt_per_day[d]];
        assert!(row.map(|n| n as u32) == t.days[d], "the trace's day {d} is not the published one");
        assert!(bits(r.cost_per_day[d]) == bits(t.costs[d]) && bits(r.memorized_cnt_per_day[d]) == bits(t.memorized[d]));
    }
    assert!(r.cards.len() == t.cards.len());
}

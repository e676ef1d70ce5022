//! Calls that chance does not make: the usual rate, the largest deck, the longest span, the ways of refusal 6, and each two
//! faults at once.
use crate::calls::chained;
use crate::cases::usual;
use crate::lent::Call;
use crate::reference;
use crate::runs::{Difference, Port, Tally, compare, port, report};
use crate::spoils::{lengths, pairs};
use oracle::drawn::{self, OWN, PORTS};

/// The usual rate with the cards of a first month as existing ones.
fn usual_with_cards() -> Call {
    let first = Call::exact("", usual(2000, 30));
    let mut call = chained(&first, &reference::result(&first), true);
    call.case.deck_size = 4000;
    call.case.learn_span = 365;
    Call::exact("the usual rate with cards", call.case)
}

fn largest_deck() -> Vec<Call> {
    let mut c = usual(65_536, 3);
    c.max_cost_perday = f32::INFINITY;
    let first = Call::exact("the largest deck", c);
    let with_cards = chained(&first, &reference::result(&first), false);
    let mut limited = first.clone();
    limited.case.learn_limit = 30_000;
    limited.case.max_cost_perday = 1e5;
    vec![first, Call { made: "the largest deck with cards", ..with_cards }, limited]
}

fn longest_span() -> Vec<Call> {
    let call = Call::exact("the longest span", usual(3, 36_500));
    let mut put_off = call.clone();
    put_off.case.max_cost_perday = 0.0;
    vec![call, put_off]
}

pub fn calls() -> Vec<Call> {
    let usual_rate = vec![Call::exact("the usual rate", usual(4000, 365)), usual_with_cards()];
    [lengths(), pairs(), usual_rate, largest_deck(), longest_span()].concat()
}

pub fn pass(port: Port, calls: &[Call]) -> Result<Tally, Box<Difference>> {
    let mut tally = Tally::default();
    for call in calls {
        tally.count(call, &compare(port, call)?);
    }
    Ok(tally)
}

/// Once with the Rust drawing by the port's functions, once by the harness's own rule.
pub fn main() {
    let calls = calls();
    for (rule, name) in [(OWN, "the harness's own rule"), (PORTS, "the port's functions")] {
        drawn::go_by(rule);
        match pass(&port, &calls) {
            Ok(tally) => println!("edges, draws by {name}: {}", tally.told()),
            Err(d) => report(&d),
        }
    }
}

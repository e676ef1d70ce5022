//! Whole runs: the port beside the Rust, on varied calls from a seed: answer, rows, due counts, cards, queue, draws, the interval
//! table, and every place that a run must leave, where the run ended and where it was refused. Every second call is compared
//! with the Rust drawing by the harness's own rule, the others with the Rust drawing by the port's functions.
use crate::calls::{following, generated, smaller};
use crate::generate::Words;
use crate::lent::{Answer, Call, Lists};
use crate::reference;
use crate::result::Result;
use oracle::drawn::{self, OWN, PORTS, Rule};
use std::collections::BTreeMap;

/// A port's run: the lists are written, and the answer's numbers returned.
pub type Port<'a> = &'a dyn Fn(&Call, &mut Lists) -> Answer;

pub fn port(call: &Call, lists: &mut Lists) -> Answer {
    lists.simulate(call)
}

/// A call on which the port and the Rust differ.
pub struct Difference {
    pub call: Call,
    pub ours: Result,
    pub theirs: Result,
}

/// The Rust's result, where the port's is the same.
pub fn compare(port: Port, call: &Call) -> std::result::Result<Result, Box<Difference>> {
    let theirs = reference::result(call);
    let mut lists = Lists::of(call);
    let answer = port(call, &mut lists);
    let ours = lists.result(call, answer);
    if ours == theirs { Ok(theirs) } else { Err(Box::new(Difference { call: call.clone(), ours, theirs })) }
}

/// What was compared.
#[derive(Default)]
pub struct Tally {
    pub calls: u64,
    pub turns: u64,
    pub events: u64,
    ends: BTreeMap<u32, u64>,
    made: BTreeMap<&'static str, u64>,
}

impl Tally {
    pub fn count(&mut self, call: &Call, result: &Result) {
        self.calls += 1;
        self.turns += result.turns;
        self.events += result.events();
        *self.ends.entry(result.number).or_default() += 1;
        *self.made.entry(call.made).or_default() += 1;
    }

    pub fn told(&self) -> String {
        let ends = self.ends.iter().map(|(k, n)| if *k == 0 { format!("{n} Ok") } else { format!("{n} refused {k}") });
        let made = self.made.iter().map(|(k, n)| format!("{n} {k}"));
        let (ends, made) = (ends.collect::<Vec<_>>().join(", "), made.collect::<Vec<_>>().join(", "));
        format!("{} calls alike ({ends}), {} turns, {} events; made: {made}", self.calls, self.turns, self.events)
    }
}

/// Compares n calls, the following ones counted.
pub fn varied(port: Port, rules: [Rule; 2], n: u64, seed: u64) -> std::result::Result<Tally, Box<Difference>> {
    let mut words = Words::new(seed ^ 0x7275);
    let mut tally = Tally::default();
    while tally.calls < n {
        drawn::go_by(rules[tally.calls as usize % 2]);
        let call = generated(&mut words);
        let result = compare(port, &call)?;
        tally.count(&call, &result);
        if result.number == 0 {
            for next in following(&mut words, &call, &result) {
                tally.count(&next, &compare(port, &next)?);
            }
        }
    }
    drawn::go_by(PORTS);
    Ok(tally)
}

fn shrink(mut call: Call) -> Call {
    for _ in 0..200 {
        let Some(next) = smaller(&call).into_iter().find(|c| compare(&port, c).is_err()) else { break };
        call = next;
    }
    call
}

/// Prints a difference, made smaller, and ends the program.
pub fn report(d: &Difference) -> ! {
    println!("DIFFERENCE ({}) in {}", d.call.made, d.ours.differing(&d.theirs).join(", "));
    let small = shrink(d.call.clone());
    let d = compare(&port, &small).err().unwrap_or_else(|| std::process::exit(1));
    println!("call {:?}\nport {:?}\nreference {:?}", d.call, d.ours, d.theirs);
    std::process::exit(1)
}

pub fn main(n: u64, seed: u64) {
    match varied(&port, [PORTS, OWN], n, seed) {
        Ok(tally) => println!("runs: {} (seed {seed})", tally.told()),
        Err(d) => report(&d),
    }
}

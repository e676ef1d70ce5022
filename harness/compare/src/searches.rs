//! Searches: the port beside the Rust, on varied calls from a seed and on each two faults at once. The whole search: answer, rounds,
//! mean, and the lists as the last run made leaves them; by the stepper: every trial's retention and mean, with the runs of a trial
//! on all cores.
use crate::calls::generated;
use crate::cases::usual;
use crate::floats::bits;
use crate::generate::Words;
use crate::lent::{Call, Lists};
use crate::port;
use crate::reference;
use crate::result::Result;
use crate::rules::{search_faults, short_list};
use crate::spoils::pairs;
use oracle::ours::simulation::probe;
use oracle::trace;
use std::time::Instant;

/// What a search says: number, second number, the list of refusal 6, rounds done, the retention found and its mean.
#[derive(Clone, Debug, PartialEq)]
pub struct Said {
    pub number: u32,
    pub second: u32,
    pub list: u32,
    pub rounds: u32,
    pub retention: u64,
    pub mean: u64,
}

impl Said {
    fn found(retention: f32, mean: f32, rounds: u32) -> Said {
        Said { number: 0, second: 0, list: 0, rounds, retention: bits(retention), mean: bits(mean) }
    }

    fn refused(number: u32, second: u32) -> Said {
        Said { number, second, list: 0, rounds: 0, retention: 0, mean: 0 }
    }
}

type Trials = Vec<(u64, u64)>;

/// A search's answer, its trials, and its last run: none where the entry refused.
#[derive(Clone, Debug, PartialEq)]
struct Searched {
    said: Said,
    trials: Trials,
    last: Option<Result>,
}

/// The call of the last run that the Rust made.
fn last_call(call: &Call) -> Call {
    let (retention, runs) = trace::last_trial();
    let mut last = call.clone();
    last.case.desired_retention = retention;
    last.case.seed = 41 + runs;
    last
}

/// What the Rust says, and its last run's call.
fn reference(call: &Call, rounds: u32) -> (Searched, Option<Call>) {
    if let Some(&(number, second)) = search_faults(call, rounds).first() {
        let list = if number == 6 { short_list(call) } else { 0 };
        return (Searched { said: Said { list, ..Said::refused(number, second) }, trials: vec![], last: None }, None);
    }
    let mut c = call.case.clone();
    c.parameters.truncate(34);
    trace::set_rounds(rounds as i32);
    trace::limit(call.lengths.keys, u64::MAX);
    trace::trials();
    let found = probe::search(&c);
    let trials = trace::trials();
    let done = trace::rounds_done() as u32;
    let said = match (found, trace::last().stopped) {
        (_, Some((number, card))) => Said::refused(number, card),
        (Ok(x), None) => Said::found(x, trials.iter().rfind(|t| bits(t.0) == bits(x)).expect("x was tried").1, done),
        (Err(_), None) => Said::refused(10, done),
    };
    let last = last_call(call);
    let result = reference::result(&last);
    let trials = trials.iter().map(|t| (bits(t.0), bits(t.1))).collect();
    (Searched { said, trials, last: Some(result) }, Some(last))
}

/// What the Rust's search says.
pub fn said(call: &Call, rounds: u32) -> Said {
    reference(call, rounds).0.said
}

/// A port's whole search: the lists are written, and the answer's numbers and floats returned.
type Port<'a> = &'a dyn Fn(&Call, u32, &mut Lists) -> ([u32; 4], [f32; 2]);

fn port_itself(call: &Call, rounds: u32, lists: &mut Lists) -> ([u32; 4], [f32; 2]) {
    lists.search(call, rounds)
}

/// What a port's whole search says, and the lists that it left; the answer tells no turns, cards and draws of its last run, so those
/// are the Rust's.
fn whole(port: Port, call: &Call, rounds: u32, theirs: &Searched, last: Option<&Call>) -> (Said, Option<Result>) {
    let mut lists = Lists::of(call);
    let ([number, second, done, list], [retention, mean]) = port(call, rounds, &mut lists);
    let said = if number == 0 { Said::found(retention, mean, done) } else { Said { list, ..Said::refused(number, second) } };
    let left = match (last, &theirs.last) {
        (Some(last), Some(r)) => {
            lists.result(last, [r.number.into(), r.second.into(), r.turns, r.cards.into(), r.draws, r.queued.into(), r.list.into()])
        }
        _ => lists.result(call, [number.into(), second.into(), 0, 0, call.case.seed, 0, list.into()]),
    };
    (said, Some(left))
}

/// The targets of a trial's runs, in the order of their seeds, on so many threads; or the refusal of the first that was refused.
fn trial(call: &Call, retention: f32, threads: usize) -> std::result::Result<Vec<f32>, (u32, u32)> {
    let span = call.case.learn_span;
    let n = port::drill_sample_size(span) as usize;
    let run = |i: usize, lists: &mut Lists, mine: &mut Call| {
        mine.case.seed = 42 + i as u64;
        let answer = lists.simulate(mine);
        match answer[0] {
            0 => Ok(port::target(span, lists.costs.places(), lists.memorized.places())),
            number => Err((number as u32, answer[1] as u32)),
        }
    };
    let mut all: Vec<std::result::Result<f32, (u32, u32)>> = vec![Ok(0.0); n];
    std::thread::scope(|scope| {
        for part in all.chunks_mut(n.div_ceil(threads)).enumerate() {
            let (k, part) = part;
            scope.spawn(move || {
                let mut mine = call.clone();
                mine.case.desired_retention = retention;
                let mut lists = Lists::of(&mine);
                part.iter_mut().enumerate().for_each(|(j, x)| *x = run(k * n.div_ceil(threads) + j, &mut lists, &mut mine));
            });
        }
    });
    all.into_iter().collect()
}

/// The search by the stepper, on so many threads.
fn stepped(call: &Call, rounds: u32, threads: usize) -> (Said, Trials) {
    let mut search = port::drill_search_start(rounds);
    let mut trials = vec![];
    loop {
        let u = port::drill_search_next(search);
        if u.is_nan() {
            break;
        }
        match trial(call, u, threads) {
            Err((number, second)) => return (Said::refused(number, second), trials),
            Ok(targets) => {
                let mean = port::mean(&targets);
                trials.push((bits(u), bits(mean)));
                search = port::drill_search_take(search, mean);
            }
        }
    }
    let said = match port::drill_search_answer(search) {
        0 => Said::found(search.state.x, search.state.fx, search.state.done),
        number => Said::refused(number, search.state.done),
    };
    (said, trials)
}

/// What the program `search_points` must print of a search, by the Rust.
pub fn told(call: &Call, rounds: u32) -> String {
    let (theirs, _) = reference(call, rounds);
    let (said, last) = (theirs.said, theirs.last);
    match (said.number, last) {
        (0, Some(r)) => {
            let (retention, mean, cost, memorized) = (said.retention, said.mean, r.costs[0], r.memorized[0]);
            format!("found {retention:08x} {mean:08x} {} {cost:08x} {memorized:08x}\n", said.rounds)
        }
        (number, _) => format!("refused {number} {}\n", said.second),
    }
}

fn cores() -> usize {
    std::thread::available_parallelism().map_or(1, usize::from)
}

/// The Rust's search, where a port's whole search is the same; else what differs.
fn compare(port: Port, call: &Call, rounds: u32) -> std::result::Result<Searched, String> {
    let (theirs, last) = reference(call, rounds);
    let (said, left) = whole(port, call, rounds, &theirs, last.as_ref());
    let expected = theirs.last.clone().unwrap_or_else(|| Result::refused_at_entry(call, theirs.said.number, theirs.said.second));
    if said != theirs.said {
        return Err(format!("port {said:?}, reference {:?}", theirs.said));
    }
    match left {
        Some(left) if left != expected => Err(format!("lists: {}", left.differing(&expected).join(", "))),
        _ => Ok(theirs),
    }
}

/// The same by the stepper, with the trials on all cores.
fn compare_stepped(call: &Call, rounds: u32, theirs: &Searched) -> std::result::Result<(), String> {
    if theirs.last.is_none() {
        return Ok(());
    }
    let (said, trials) = stepped(call, rounds, cores());
    if said == theirs.said && trials == theirs.trials {
        return Ok(());
    }
    Err(format!("by the stepper {said:?} {trials:?}, reference {:?} {:?}", theirs.said, theirs.trials))
}

fn both(call: &Call, rounds: u32) -> Searched {
    let alike = compare(&port_itself, call, rounds).and_then(|s| compare_stepped(call, rounds, &s).map(|()| s));
    alike.unwrap_or_else(|difference| {
        println!("DIFFERENCE in a search of {rounds} rounds: {difference}\ncall {call:?}");
        std::process::exit(1)
    })
}

/// Small decks over short spans, mostly: a trial of a short span has 180 runs.
fn small(words: &mut Words) -> Call {
    loop {
        let call = generated(words);
        let c = &call.case;
        let work = u64::from(c.deck_size.min(65_536)) * u64::from(c.learn_span.min(36_500));
        if work <= 400 || (work <= 8000 && words.chance(25)) || !search_faults(&call, 64).is_empty() {
            return call;
        }
    }
}

fn rounds(words: &mut Words) -> u32 {
    match words.below(12) {
        0 => words.pick(&[0, 65, u32::MAX]),
        1 => 1 + words.below(9) as u32,
        _ => words.pick(&[64, 64, 57, 20]),
    }
}

/// How many ended in each way.
#[derive(Default)]
struct Tally {
    ends: std::collections::BTreeMap<u32, u64>,
    trials: usize,
    nan: u64,
}

impl Tally {
    fn count(&mut self, s: &Searched) {
        *self.ends.entry(s.said.number).or_default() += 1;
        self.trials += s.trials.len();
        self.nan += u64::from(s.trials.iter().any(|t| t.1 == bits(f32::NAN)));
    }
}

pub fn main(n: u64, seed: u64) {
    let mut words = Words::new(seed ^ 0x7365);
    let mut tally = Tally::default();
    for _ in 0..n {
        let call = small(&mut words);
        tally.count(&both(&call, rounds(&mut words)));
    }
    for call in pairs() {
        [64, 0, 65, u32::MAX].iter().for_each(|&rounds| tally.count(&both(&call, rounds)));
    }
    if n >= 2000 {
        let few = usual(400, 365);
        for call in [Call::exact("400 cards, a year", few), Call::exact("the usual rate", usual(4000, 365))] {
            tally.count(&both(&call, 64));
        }
    }
    let ends = tally.ends.iter().map(|(k, n)| if *k == 0 { format!("{n} found") } else { format!("{n} refused {k}") });
    println!(
        "search: alike ({}), {} trials, {} searches with a NaN among their means, trials on {} threads (seed {seed})",
        ends.collect::<Vec<_>>().join(", "),
        tally.trials,
        tally.nan,
        cores()
    );
}

/// The published Rust's trials on two threads: its runs over the seeds, each half on a thread of its own.
fn published_on_two(call: &Call, retentions: &[f32]) {
    let n = port::drill_sample_size(call.case.learn_span) as usize;
    for &u in retentions {
        std::thread::scope(|scope| {
            for k in 0..2 {
                scope.spawn(move || {
                    let mut c = call.case.clone();
                    c.desired_retention = u;
                    for i in (0..n).filter(|i| i % 2 == k) {
                        c.seed = 42 + i as u64;
                        std::hint::black_box(oracle::published::simulation::probe::run(&c).unwrap());
                    }
                });
            }
        });
    }
}

/// Seconds of processor time that this process has used, of all its threads.
fn processor() -> f64 {
    let text = std::fs::read_to_string("/proc/self/stat").expect("Linux has this file");
    let after_name = text.rsplit(')').next().unwrap();
    let ticks = |i: usize| after_name.split_whitespace().nth(i).unwrap().parse::<f64>().unwrap();
    (ticks(11) + ticks(12)) / 100.0
}

/// Seconds by the clock, and of processor time.
fn seconds(run: &mut dyn FnMut()) -> [f64; 2] {
    let (start, used) = (Instant::now(), processor());
    run();
    [start.elapsed().as_secs_f64(), processor() - used]
}

/// A search at the usual rate: the published Rust and the port on one thread, then both on two.
pub fn bench(rounds: u64) {
    let call = Call::exact("the usual rate", usual(4000, 365));
    let mut times = [[f64::MAX; 2]; 4];
    let mut least = |i: usize, t: [f64; 2]| times[i] = [times[i][0].min(t[0]), times[i][1].min(t[1])];
    trace::set_rounds(64);
    trace::trials();
    for _ in 0..rounds {
        let mut found = 0.0;
        least(0, seconds(&mut || found = oracle::published::simulation::probe::search(&call.case).unwrap()));
        let retentions: Vec<f32> = trace::trials().iter().map(|t| t.0).collect();
        let mut lists = Lists::of(&call);
        least(1, seconds(&mut || _ = lists.search(&call, 64)));
        least(2, seconds(&mut || published_on_two(&call, &retentions)));
        least(3, seconds(&mut || drop(stepped(&call, 64, 2))));
        println!("  {} trials, the published Rust found {found}", retentions.len());
    }
    println!("bench: a search at the usual rate, by the clock and of processor time, least of {rounds}");
    let names = ["the published Rust", "the port", "the published Rust's runs on two threads", "the port's stepper on two threads"];
    for (i, name) in names.iter().enumerate() {
        let [[clock, used], rust] = [times[i], times[i / 2 * 2]];
        println!("  {name:<44} {clock:>7.2} s {:>5.2} {used:>9.2} s {:>5.2}", clock / rust[0], used / rust[1]);
    }
}

type Wrong = (&'static str, fn(&Call, u32, &mut Lists) -> ([u32; 4], [f32; 2]));

/// Right, but for what is changed afterwards.
fn after(call: &Call, rounds: u32, lists: &mut Lists, change: impl Fn(&mut Lists, &mut [u32; 4], &mut [f32; 2])) -> ([u32; 4], [f32; 2]) {
    let (mut numbers, mut floats) = lists.search(call, rounds);
    change(lists, &mut numbers, &mut floats);
    (numbers, floats)
}

fn flip(x: &mut f32) {
    *x = f32::from_bits(x.to_bits() ^ 1);
}

/// Wrong searches, each wrong in one thing.
const WRONG: [Wrong; 11] = [
    ("the number", |c, n, l| after(c, n, l, |_, numbers, _| numbers[0] ^= 1)),
    ("the second number", |c, n, l| after(c, n, l, |_, numbers, _| numbers[1] += 1)),
    ("the rounds done", |c, n, l| after(c, n, l, |_, numbers, _| numbers[2] += 1)),
    ("the list of refusal 6", |c, n, l| after(c, n, l, |_, numbers, _| numbers[3] += u32::from(numbers[0] == 6))),
    ("the retention", |c, n, l| after(c, n, l, |_, _, floats| flip(&mut floats[0]))),
    ("the mean", |c, n, l| after(c, n, l, |_, _, floats| flip(&mut floats[1]))),
    ("a cost that is left", |c, n, l| after(c, n, l, |lists, _, _| lists.costs.places_mut().iter_mut().take(1).for_each(flip))),
    ("a card that is left", |c, n, l| {
        after(c, n, l, |lists, _, _| lists.cards.places_mut().iter_mut().take(1).for_each(|x| flip(&mut x[4])))
    }),
    ("65 rounds taken", |c, n, l| l.search(c, n.min(64))),
    ("a round more", |c, n, l| l.search(c, n.saturating_add(1))),
    ("convergence tested before the rounds", |c, n, l| {
        let (numbers, floats) = l.search(c, n);
        if numbers[0] == 10 { l.search(c, 64) } else { (numbers, floats) }
    }),
];

/// Each wrong search must be seen in at most n varied ones; how many there are.
pub fn planted(n: u64) -> usize {
    for (name, wrong) in WRONG {
        let mut words = Words::new(0x706C);
        let seen = (0..n).any(|_| {
            let call = small(&mut words);
            compare(&wrong, &call, rounds(&mut words)).is_err()
        });
        if !seen {
            println!("planted: NOT SEEN in {n} searches: {name}");
            std::process::exit(1)
        }
    }
    WRONG.len()
}

//! The reference's whole runs for the program `replay`: lines that tell a run's inputs, where they change, and what is printed of it,
//! the answer, the rows of its days, and digests of its lists over every place that the program has.
use crate::cases::{self, usual};
use crate::floats::pattern;
use crate::generate::Words;
use crate::lent::{Call, Lengths};
use crate::planted::{Named, Stored, in_stored, seen_in_stored, with_text};
use crate::reference;
use crate::result::Result;
use crate::spoils::{FAULTS, lengths};
use crate::stored::Sample;
use oracle::case::Case;
use oracle::native;

/// The lengths of the program's lists, and what stands in each place before a run.
const CARDS: usize = 4096;
const DAYS: usize = 400;
const DUE: usize = 600;
const PLACES: usize = 16_384;
const BEFORE: u32 = 9;
const BEFORE_FLOAT: u32 = 0x4110_0000;

/// What the program was told, by function and words.
#[derive(Default)]
struct Told {
    values: std::collections::HashMap<(u32, u32), [u32; 3]>,
}

impl Told {
    fn tell(&mut self, s: &mut Sample, function: u32, i: u32, words: [u32; 3]) {
        if self.values.insert((function, i), words) != Some(words) {
            s.line(function, [i, words[0], words[1], words[2]]);
        }
    }

    fn tell_card(&mut self, s: &mut Sample, i: u32, row: [f32; 6], counts: [u32; 2]) {
        let w = row.map(pattern);
        self.tell(s, 72, i, [w[0], w[1], w[2]]);
        self.tell(s, 73, i, [w[3], w[4], w[5]]);
        self.tell(s, 74, i, [counts[0], counts[1], 0]);
    }

    fn tell_call(&mut self, s: &mut Sample, call: &Call) {
        let c = &call.case;
        let one = |x: u32| [x, 0, 0];
        c.parameters.iter().enumerate().for_each(|(i, x)| self.tell(s, 0, i as u32, one(pattern(*x))));
        call.numbers().iter().enumerate().for_each(|(i, n)| self.tell(s, 70, i as u32, one(*n)));
        let mut settings = vec![c.max_cost_perday, c.max_ivl, c.desired_retention];
        settings.extend(c.first_rating_prob);
        settings.extend(c.review_rating_prob);
        settings.extend(c.learning_step_transitions);
        settings.extend(c.relearning_step_transitions);
        settings.extend(c.state_rating_costs);
        settings.iter().enumerate().for_each(|(i, x)| self.tell(s, 71, i as u32, one(pattern(*x))));
        let mut lengths: Vec<usize> = call.lengths.clone().each().iter().map(|(_, len)| **len).collect();
        lengths.push(c.parameters.len());
        lengths.iter().enumerate().for_each(|(i, n)| self.tell(s, 75, i as u32, one(*n as u32)));
        let (mut rows, mut counts) = call.existing();
        let n = rows.len().max(counts.len());
        rows.resize(n, [0.0; 6]);
        counts.resize(n, [0; 2]);
        rows.iter().zip(counts).enumerate().for_each(|(i, (row, n))| self.tell_card(s, i as u32, *row, n));
    }

    /// The program has kept a run's cards.
    fn keep(&mut self, r: &Result) {
        let mut unsaid = Sample::default();
        r.rows().iter().enumerate().for_each(|(i, (row, n))| self.tell_card(&mut unsaid, i as u32, *row, *n));
        [9, 10].iter().for_each(|&i| self.tell(&mut unsaid, 75, i, [r.cards, 0, 0]));
    }
}

fn add(d: u32, x: u32) -> u32 {
    native::word(&mut (((d as u64) << 32) + x as u64))
}

fn digest(words: impl Iterator<Item = u32>) -> u32 {
    words.fold(0, add)
}

/// A list's words: those that the run wrote, and what stood before in the other places.
fn words<const N: usize>(rows: &[[u32; N]], len: usize, before: u32) -> Vec<[u32; N]> {
    let mut all = rows.to_vec();
    all.resize(len, [before; N]);
    all
}

fn of_cards(r: &Result) -> u32 {
    let floats: Vec<[u32; 6]> = r.floats.iter().map(|row| row.map(|b| b as u32)).collect();
    let (rows, counts) = (words(&floats, CARDS, BEFORE_FLOAT), words(&r.counts, CARDS, BEFORE));
    digest((0..CARDS).flat_map(|i| [&rows[i][..], &counts[i][..]].concat()))
}

fn of_days(r: &Result) -> u32 {
    let floats = |list: &[u64]| words(&list.iter().map(|b| [*b as u32]).collect::<Vec<_>>(), DAYS, BEFORE_FLOAT);
    let (days, costs, memorized) = (words(&r.days, DAYS, BEFORE), floats(&r.costs), floats(&r.memorized));
    digest((0..DAYS).flat_map(|i| [&days[i][..], &costs[i][..], &memorized[i][..]].concat()))
}

fn of_due(r: &Result) -> u32 {
    let due: Vec<[u32; 1]> = r.due.iter().map(|n| [*n]).collect();
    digest(words(&due, DUE, BEFORE).into_iter().flatten())
}

/// Places that no run reached hold what stood there before, at an entry's refusal all of them.
fn of_table(call: &Call, r: &Result) -> u32 {
    let entered = |k: [u32; 2], v: u32| digest([k[0], k[1], v].into_iter());
    let reached = if (1..=6).contains(&r.number) { 0 } else { call.lengths.keys };
    let before = entered([BEFORE; 2], BEFORE_FLOAT).wrapping_mul((PLACES - reached) as u32);
    r.table.iter().fold(before, |sum, (k, v)| sum.wrapping_add(entered(*k, *v)))
}

/// What the program prints of a run.
pub fn text(call: &Call, r: &Result) -> String {
    let mut all = format!("run {:08x} {:08x} {:08x} {:08x} {:016x}\n", r.number, r.second, r.turns, r.cards, r.draws);
    for (d, n) in r.days.iter().enumerate() {
        let (cost, memorized) = (r.costs[d], r.memorized[d]);
        all += &format!("{:08x} {:08x} {:08x} {:08x} {cost:08x} {memorized:08x}\n", n[0], n[1], n[2], n[3]);
    }
    all + &format!("digests {:08x} {:08x} {:08x} {:08x}", of_cards(r), of_days(r), of_due(r), of_table(call, r))
}

/// Runs of these decks and spans, each with the cards and the draws that the one before it left.
fn chain(sizes: &[(u32, u32)]) -> Vec<(Call, bool)> {
    let mut last: Option<Result> = None;
    let mut all = Vec::new();
    for (i, &(deck, span)) in sizes.iter().enumerate() {
        let mut c = usual(deck, span);
        c.places = 12_000;
        if let Some(r) = &last {
            c.existing = r.rows();
            c.seed = r.draws;
        }
        let call = Call::exact("chained", c);
        last = Some(reference::result(&call));
        all.push((call, i + 1 < sizes.len()));
    }
    all
}

/// A run with a table as long as its keys, a place less, and longer.
fn tables() -> Vec<Call> {
    let mut c = usual(30, 30);
    c.places = 5000;
    let keys = reference::result(&Call::exact("", c.clone())).table.len();
    let of = |made, places| Call::exact(made, Case { places, ..c.clone() });
    vec![of("as long as its keys", keys), of("a place less than its keys", keys - 1), of("a longer table", keys + 1), of("", 5000)]
}

/// Each fault of the table of refusals alone, and lists of other lengths.
fn refused() -> Vec<Call> {
    let faults = FAULTS.iter().map(|(_, fault)| {
        let mut call = lengths()[0].clone();
        fault(&mut call);
        call
    });
    faults.chain(lengths()).collect()
}

/// A varied case that fits the program.
fn small(random: &mut Words) -> Call {
    loop {
        let mut c = cases::varied(random);
        c.places = c.places.min(3000);
        if c.deck_size <= 30 && c.learn_span <= 30 && c.parameters.len() <= 40 {
            return Call::exact("", c);
        }
    }
}

/// So many varied runs that end, with and without existing cards, and so many that are refused with 7 and with 8.
fn varied(random: &mut Words) -> Vec<Call> {
    let mut wanted = [(0, true, 14), (0, false, 8), (7, true, 4), (8, true, 4)];
    let mut all = Vec::new();
    while wanted.iter().any(|w| w.2 > 0) {
        let call = small(random);
        let number = reference::result(&call).number;
        let with_cards = !call.case.existing.is_empty();
        if let Some(w) = wanted.iter_mut().find(|w| w.0 == number && (w.1 == with_cards || number != 0) && w.2 > 0) {
            w.2 -= 1;
            all.push(call);
        }
    }
    all
}

/// For each wrong port that these runs do not show, one that shows it.
fn showing(random: &mut Words, shown: Vec<Call>) -> Vec<Call> {
    let shown: Vec<Stored> = shown.into_iter().map(with_text).collect();
    let hidden = in_stored().into_iter().filter(|(_, wrong)| !seen_in_stored(wrong, &shown));
    let mut show = |(name, wrong): Named| {
        let tried = (0..100_000).map(|_| with_text(small(random))).find(|one| seen_in_stored(&wrong, std::slice::from_ref(one)));
        tried.unwrap_or_else(|| panic!("no stored run shows {name}")).0
    };
    hidden.map(&mut show).collect()
}

fn fits(n: &Lengths) -> bool {
    let of_cards = [n.cards, n.counts, n.queue, n.existing, n.existing_counts];
    of_cards.iter().all(|&len| len <= CARDS)
        && n.of_days().iter().all(|&len| len <= DAYS)
        && n.due <= DUE
        && n.keys.max(n.intervals) <= PLACES
}

/// All stored runs in their order, each with whether the program keeps its cards for the next: the usual rate, alone and after a first
/// month, and a deck that is drilled over three runs, come last.
pub fn calls() -> Vec<(Call, bool)> {
    let random = &mut Words::new(2027);
    let mut single = [tables(), refused(), varied(random)].concat();
    single.extend(showing(random, single.clone()));
    let chains = [chain(&[(4000, 365)]), chain(&[(2000, 30), (4000, 365)]), chain(&[(40, 10), (50, 25), (60, 60)])].concat();
    single.into_iter().map(|call| (call, false)).chain(chains).collect()
}

/// Puts all runs, and says how many they are.
pub fn put(s: &mut Sample) -> usize {
    let mut told = Told::default();
    let calls = calls();
    for (call, keep) in &calls {
        assert!(fits(&call.lengths), "the program's lists are too short for {call:?}");
        let r = reference::result(call);
        told.tell_call(s, call);
        s.line(if *keep { 77 } else { 76 }, [(call.case.seed >> 32) as u32, call.case.seed as u32, 0, 0]);
        if *keep {
            told.keep(&r);
        }
        s.answer(&text(call, &r));
    }
    calls.len()
}

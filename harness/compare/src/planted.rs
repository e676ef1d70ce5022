//! Planted differences: wrong ports, each wrong in one thing, beside the Rust. Each must be seen; that shows that the calls
//! reach what it is wrong in, and that the comparison looks there. The port itself is never changed: a wrong one calls it with
//! another call, or changes what it left.
use crate::edges;
use crate::leaf;
use crate::lent::{Answer, Call, Lengths, Lists, MARK};
use crate::reference;
use crate::rules::faults;
use crate::runs::{Port, port, varied};
use crate::searches;
use crate::stored_runs;
use oracle::drawn::{self, OWN, PORTS, Rule};
use oracle::native;

pub type Wrong = Box<dyn Fn(&Call, &mut Lists) -> Answer>;
pub type Named = (String, Wrong);

fn named(name: &str, wrong: impl Fn(&Call, &mut Lists) -> Answer + 'static) -> Named {
    (name.to_string(), Box::new(wrong))
}

/// Right, but for what is changed afterwards in a run that was not turned away at the entry.
fn after(name: &str, change: impl Fn(&Call, &mut Lists, &mut Answer) + 'static) -> Named {
    named(name, move |call, lists| {
        let mut answer = port(call, lists);
        if !(1..=6).contains(&answer[0]) {
            change(call, lists, &mut answer);
        }
        answer
    })
}

/// Right, but of another call.
fn before(name: &str, change: impl Fn(&mut Call) + 'static) -> Named {
    named(name, move |call, lists| {
        let mut other = call.clone();
        change(&mut other);
        *lists = Lists::of(&other);
        port(&other, lists)
    })
}

/// Turns a call away that it should take.
fn refuses(name: &str, number: u64, test: impl Fn(&Call) -> bool + 'static) -> Named {
    named(
        name,
        move |call, lists| {
            if faults(call).is_empty() && test(call) { [number, 0, 0, 0, call.case.seed, 0, 0] } else { port(call, lists) }
        },
    )
}

fn flip(x: &mut f32) {
    *x = f32::from_bits(x.to_bits() ^ 1);
}

/// One bit of the answer or of a place of each list that a stored run tells.
fn bits() -> Vec<Named> {
    let mut all: Vec<Named> = (0..5).map(|i| after(&format!("number {i} of the answer"), move |_, _, answer| answer[i] ^= 1)).collect();
    all.extend([
        after("a card's column", |_, lists, _| lists.cards.places_mut().iter_mut().take(1).for_each(|row| flip(&mut row[4]))),
        after("lapses", |_, lists, answer| lists.counts.places_mut().iter_mut().take(answer[3] as usize).for_each(|row| row[1] ^= 1)),
        after("introduced on the last day", |call, lists, _| lists.days.places_mut()[call.case.learn_span as usize - 1][3] ^= 1),
        after("a cost", |_, lists, _| flip(&mut lists.costs.places_mut()[0])),
        after("memorized", |_, lists, _| flip(&mut lists.memorized.places_mut()[0])),
        after("the last due count", |call, lists, _| {
            let span = call.case.learn_span as usize;
            lists.due.places_mut()[span + span / 2 - 1] ^= 1
        }),
        after("an interval held", |_, lists, _| lists.intervals.places_mut().iter_mut().filter(|v| **v >= 1.0).take(1).for_each(flip)),
    ]);
    all
}

/// The queue, guard places, and places beyond those that a run needs.
fn beyond() -> Vec<Named> {
    vec![
        after("a queued card", |_, lists, answer| {
            if answer[0] != 0 {
                lists.queue.places_mut()[0][1] ^= 1
            }
        }),
        after("the guard place before the cards", |_, lists, _| lists.cards.guards_mut()[0][5] = 0.0),
        after("the guard place after the costs", |_, lists, _| *lists.costs.guards_mut()[1] = 0.0),
        after("the guard place before memorized", |_, lists, _| *lists.memorized.guards_mut()[0] = 0.0),
        after("the guard place before the due counts", |_, lists, _| *lists.due.guards_mut()[0] = 0),
        after("the guard place after the intervals", |_, lists, _| *lists.intervals.guards_mut()[1] = 0.0),
        after("a place beyond the days", |call, lists, _| {
            lists.days.places_mut().iter_mut().skip(call.case.learn_span as usize).for_each(|row| row[0] = 0)
        }),
        after("a cost beyond the days", |call, lists, _| {
            lists.costs.places_mut().iter_mut().skip(call.case.learn_span as usize).for_each(|x| *x = 0.0)
        }),
        after("memorized beyond the days", |call, lists, _| {
            lists.memorized.places_mut().iter_mut().skip(call.case.learn_span as usize).for_each(|x| *x = 0.0)
        }),
        after("a card's place beyond the run's cards", |_, lists, answer| {
            lists.cards.places_mut().iter_mut().skip(answer[3] as usize).for_each(|row| row[0] = 0.0)
        }),
        after("how many cards are queued", |_, _, answer| answer[5] ^= 1),
        named("the list of refusal 6", |call, lists| {
            let mut answer = port(call, lists);
            answer[6] += u64::from(answer[0] == 6);
            answer
        }),
        named("a list told with another refusal", |call, lists| {
            let mut answer = port(call, lists);
            answer[6] |= u64::from(answer[0] == 2);
            answer
        }),
    ]
}

/// A list written at an entry's refusal.
fn writes_at_refusal() -> Vec<Named> {
    let writes = |name: &str, write: fn(&mut Lists)| {
        named(&format!("{name} written at an entry's refusal"), move |call, lists| {
            let answer = port(call, lists);
            if (1..=6).contains(&answer[0]) {
                write(lists);
            }
            answer
        })
    };
    vec![
        writes("a day", |lists| lists.days.places_mut().iter_mut().take(1).for_each(|row| row[0] = 0)),
        writes("a cost", |lists| lists.costs.places_mut().iter_mut().take(1).for_each(|x| *x = 0.0)),
        writes("memorized", |lists| lists.memorized.places_mut().iter_mut().take(1).for_each(|x| *x = 0.0)),
    ]
}

/// Sizes, lengths and ways of making a call that are reached.
fn reached() -> Vec<Named> {
    let last_card = |lists: &mut Lists, answer: &Answer| {
        if answer[3] > 0 {
            flip(&mut lists.cards.places_mut()[answer[3] as usize - 1][1])
        }
    };
    let made = ["as long as its keys", "a longer table", "chained", "a real key"].map(|made| {
        after(&format!("the last card, {made}"), move |call, lists, answer| {
            if call.made == made {
                last_card(lists, answer)
            }
        })
    });
    let mut all = vec![
        after("the last card of more than 200", move |call, lists, answer| {
            if call.case.deck_size > 200 {
                last_card(lists, answer)
            }
        }),
        after("memorized on the last of more than 400 days", |call, lists, _| {
            if call.case.learn_span > 400 {
                flip(&mut lists.memorized.places_mut()[call.case.learn_span as usize - 1])
            }
        }),
        refuses("lists of exactly the needed length refused", 6, |call| call.lengths == Lengths::needed(&call.case)),
        refuses("a list longer than needed refused", 6, |call| call.lengths.due > Lengths::needed(&call.case).due),
        refuses("more than 34 parameters refused", 1, |call| call.case.parameters.len() > 34),
        refuses("a parameter after the 34th tested", 1, |call| call.case.parameters.iter().any(|x| !x.is_finite())),
        after("a key that was there before stays", |call, lists, _| {
            if call.poison != [MARK; 2]
                && let Some(i) = lists.intervals.places().iter().position(|v| *v < 1.0)
            {
                lists.keys.places_mut()[i] = call.poison;
                lists.intervals.places_mut()[i] = 3.0;
            }
        }),
    ];
    all.extend(made);
    all
}

fn has_minus_zero(row: &[f32]) -> bool {
    row.iter().any(|x| x.to_bits() == 0x8000_0000)
}

/// Weights as they would be with the total brought up: no product with it is rounded.
fn brought_up(row: &mut [f32]) {
    if row.iter().sum::<f32>() <= f32::MIN_POSITIVE {
        row.iter_mut().for_each(|x| *x *= 2f32.powi(60));
    }
}

fn near_the_top(limit: &mut u32) {
    if (u32::MAX - 8..u32::MAX).contains(limit) {
        *limit = 0
    }
}

/// Rules that are nearly right.
fn nearly() -> Vec<Named> {
    vec![
        before("full with a place left", |call| {
            if call.made == "as long as its keys" && call.lengths.keys > 0 {
                call.lengths.keys -= 1;
                call.lengths.intervals -= 1;
            }
        }),
        before("not full with no place left", |call| {
            if call.made == "a place less than its keys" {
                call.lengths.keys += 1;
                call.lengths.intervals += 1;
            }
        }),
        before("learn limits next to the top taken as 0", |call| near_the_top(&mut call.case.learn_limit)),
        before("review limits next to the top taken as 0", |call| near_the_top(&mut call.case.review_limit)),
        before("lapse limits next to the top taken as 0", |call| near_the_top(&mut call.case.suspend_after_lapses)),
        before("first weights with a total of 2^-126 or less brought up", |call| brought_up(&mut call.case.first_rating_prob)),
        before("review weights with a total of 2^-126 or less brought up", |call| brought_up(&mut call.case.review_rating_prob)),
        before("rows of transitions with a total of 2^-126 or less brought up", |call| {
            let c = &mut call.case;
            c.learning_step_transitions.chunks_mut(4).chain(c.relearning_step_transitions.chunks_mut(4)).for_each(brought_up)
        }),
        refuses("a weight of -0.0 refused", 4, |call| has_minus_zero(&call.case.first_rating_prob)),
        refuses("a cost of -0.0 refused", 4, |call| has_minus_zero(&call.case.state_rating_costs)),
        before("a day stops at a cost equal to the maximum", |call| {
            if call.case.max_cost_perday >= 1.0 {
                call.case.max_cost_perday = call.case.max_cost_perday.next_down()
            }
        }),
        before("the longest interval in whole days", |call| call.case.max_ivl = call.case.max_ivl.floor()),
        before("retentions of cards kept within 0 to 1", |call| {
            call.case.existing.iter_mut().filter(|(row, _)| row[5].abs() > 2.0).for_each(|(row, _)| row[5] = row[5].clamp(0.0, 1.0))
        }),
        after("costs and memorized in each other's place", |_, lists, _| std::mem::swap(&mut lists.costs, &mut lists.memorized)),
        before("seeds of 32 bits", |call| call.case.seed &= 0xFFFF_FFFF),
        before("reps of existing cards forgotten", |call| call.case.existing.iter_mut().for_each(|(_, n)| n[0] = 0)),
    ]
}

/// Each two neighbours of the table of refusals tested the other way round.
fn orders() -> Vec<Named> {
    let table = [(1, 34), (2, 0), (3, 0), (4, 0), (6, 0), (2, 1), (5, 5)];
    let swapped = |i: usize| {
        let (first, second): ((u32, u32), (u32, u32)) = (table[i], table[i + 1]);
        named(&format!("refusal {} {} before {} {}", second.0, second.1, first.0, first.1), move |call, lists| {
            let mut answer = port(call, lists);
            let found = faults(call);
            if found.first() == Some(&first) && found.contains(&second) {
                (answer[0], answer[1]) = (second.0 as u64, second.1 as u64);
            }
            answer
        })
    };
    (0..table.len() - 1).map(swapped).collect()
}

/// Takes a call whose one fault a change of its lengths, towards the needed ones, mends.
fn takes(name: &str, mend: impl Fn(&mut Lengths, &mut Lengths) + 'static) -> Named {
    named(name, move |call, lists| {
        let mut other = call.clone();
        mend(&mut other.lengths, &mut Lengths::needed(&call.case));
        if faults(call) == [(6, 0)] && faults(&other).is_empty() {
            *lists = Lists::of(&other);
            return port(&other, lists);
        }
        port(call, lists)
    })
}

/// Each test of a length left out; and cards and counts compared only with each other, or not at all.
fn untested() -> Vec<Named> {
    let mut any = Lengths::needed(&crate::cases::usual(1, 1));
    let each = any.each().into_iter().enumerate();
    let one = |i: usize| move |n: &mut Lengths, needed: &mut Lengths| *n.each()[i].1 = *needed.each()[i].1;
    let mut all: Vec<Named> = each.map(|(i, (name, _))| takes(&format!("the length of {name} not tested"), one(i))).collect();
    all.push(takes("rows of cards and of counts only compared", |n, needed| {
        if n.cards == n.counts {
            (n.cards, n.counts) = (needed.cards, needed.counts)
        }
    }));
    all.push(takes("rows of cards and of counts not compared", |n, needed| {
        if n.cards.min(n.counts) >= needed.cards {
            (n.cards, n.counts) = (needed.cards, needed.counts)
        }
    }));
    all
}

/// The last card or day of the calls that chance does not make.
fn large() -> Vec<Named> {
    let sizes = ["the usual rate", "the usual rate with cards", "the largest deck", "the largest deck with cards", "the longest span"];
    sizes
        .iter()
        .map(|&made| {
            after(&format!("the last cost, {made}"), move |call, lists, _| {
                if call.made == made {
                    flip(&mut lists.costs.places_mut()[call.case.learn_span as usize - 1])
                }
            })
        })
        .collect()
}

/// Draws of the Rust by a rule that is nearly the harness's own.
fn rules() -> Vec<(&'static str, Rule)> {
    fn reached(weights: &[f32], word: u32) -> usize {
        let target = native::unit(word) * weights.iter().fold(0.0f32, |sum, w| sum + w);
        let mut sum = 0.0f32;
        weights
            .iter()
            .position(|w| {
                sum += w;
                sum >= target
            })
            .unwrap_or(0)
    }
    vec![
        ("a rating where the sum reaches the target", Rule { rating: reached, ..OWN }),
        ("a recall by the word's upper 8 bits", Rule { recalled: |chance, word| (word >> 24) as f32 / 256.0 < chance, ..OWN }),
        (
            "a word by the lower half",
            Rule {
                word: |state| {
                    *state = native::advance(*state);
                    native::mix(*state) as u32
                },
                ..OWN
            },
        ),
    ]
}

fn not_seen(name: &str) -> ! {
    println!("planted: NOT SEEN: {name}");
    std::process::exit(1)
}

fn leaves() -> u64 {
    let all = leaf::wrong();
    for leaf in &all {
        if leaf::first_difference(leaf, 20 * leaf.times, 1).is_none() {
            not_seen(leaf.name);
        }
    }
    all.len() as u64
}

/// A call with what the Rust prints of it.
pub type Stored = (Call, String);

pub fn with_text(call: Call) -> Stored {
    let text = stored_runs::text(&call, &reference::result(&call));
    (call, text)
}

/// Whether a port prints something else than is stored, in one of the stored runs.
pub fn seen_in_stored(port: Port, stored: &[Stored]) -> bool {
    stored.iter().any(|(call, text)| {
        let mut lists = Lists::of(call);
        let answer = port(call, &mut lists);
        *text != stored_runs::text(call, &lists.result(call, answer))
    })
}

fn seen_by_chance(port: Port, rule: Rule, n: u64) -> bool {
    let seen = varied(port, [PORTS, rule], n, 1).is_err();
    drawn::go_by(PORTS);
    seen
}

/// The wrong ports that the stored runs must show.
pub fn in_stored() -> Vec<Named> {
    [bits(), nearly(), untested()].into_iter().flatten().collect()
}

/// The right port, by the same means, is not seen.
fn control(n: u64, calls: &[Call], stored: &[Stored]) {
    if seen_by_chance(&port, OWN, n) || edges::pass(&port, calls).is_err() || seen_in_stored(&port, stored) {
        println!("planted: a difference without a wrong port");
        std::process::exit(1)
    }
}

/// Counts those that are seen; there must be no other.
fn each_seen(all: Vec<Named>, seen: impl Fn(Port) -> bool) -> u64 {
    if let Some((name, _)) = all.iter().find(|(_, wrong)| !seen(wrong)) {
        not_seen(name);
    }
    all.len() as u64
}

pub fn main(n: u64) {
    let calls = edges::calls();
    let stored: Vec<Stored> = stored_runs::calls().into_iter().map(|(call, _)| with_text(call)).collect();
    control(n, &calls, &stored);
    let by_chance = [bits(), beyond(), writes_at_refusal(), reached(), nearly()].into_iter().flatten().collect();
    let mut seen = leaves() + each_seen(by_chance, |wrong| seen_by_chance(wrong, OWN, n));
    for (name, rule) in rules() {
        seen += u64::from(seen_by_chance(&port, rule, n) || not_seen(name));
    }
    let by_edges = [orders(), untested(), large()].into_iter().flatten().collect();
    seen += each_seen(by_edges, |wrong| edges::pass(wrong, &calls).is_err());
    let again = each_seen(in_stored(), |wrong| seen_in_stored(wrong, &stored));
    let searches = searches::planted(n);
    println!(
        "planted: {seen} wrong ports, rules and functions, each seen in at most {n} calls, {again} of them in the stored runs too; {searches} wrong searches"
    );
}

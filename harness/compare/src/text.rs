//! The text of the program `forecast`, read from the paper alone, apart from the port: its forms, its refusals, and what it prints
//! over the Rust's run.
use crate::lent::Call;
use crate::reference;
use crate::rules::faults;
use crate::searches;
use oracle::case::Case;
use oracle::ours::simulation::SimulatorConfig;

/// What a wrong program does otherwise; each must be seen (`texts::planted`).
#[derive(Clone, Copy, Debug, PartialEq)]
pub enum Wrong {
    Nothing,
    LowerCaseHex,
    RepeatedForms,
    WordsJoined,
    NoCarriageReturn,
    OverTwoLines,
    TooManyDigits,
    NoLeadingZeros,
    BlankLinesNotCounted,
    SizeLookedAtLast,
    OtherDefaults,
    DeckBeforeParameters,
    LargerDeck,
    LongerSpan,
    SmallerTable,
    SignOfNan,
    CardsForTurns,
    DaysFromOne,
}

pub const WRONG: [Wrong; 17] = [
    Wrong::LowerCaseHex,
    Wrong::RepeatedForms,
    Wrong::WordsJoined,
    Wrong::NoCarriageReturn,
    Wrong::OverTwoLines,
    Wrong::TooManyDigits,
    Wrong::NoLeadingZeros,
    Wrong::BlankLinesNotCounted,
    Wrong::SizeLookedAtLast,
    Wrong::OtherDefaults,
    Wrong::DeckBeforeParameters,
    Wrong::LargerDeck,
    Wrong::LongerSpan,
    Wrong::SmallerTable,
    Wrong::SignOfNan,
    Wrong::CardsForTurns,
    Wrong::DaysFromOne,
];

#[derive(Clone, Copy, Debug, PartialEq)]
enum Part<'a> {
    Open,
    Close,
    Word(&'a [u8]),
}

fn blank(b: u8, wrong: Wrong) -> bool {
    b == b' ' || b == b'\t' || (b == b'\r' && wrong != Wrong::NoCarriageReturn) || (b == b'\n' && wrong == Wrong::OverTwoLines)
}

fn parts(line: &[u8], wrong: Wrong) -> Vec<Part<'_>> {
    let mut all = Vec::new();
    let mut rest = line;
    while let Some(&b) = rest.first() {
        let mut len = 1;
        match b {
            b'(' => all.push(Part::Open),
            b')' => all.push(Part::Close),
            b if blank(b, wrong) => (),
            _ => {
                len = rest.iter().position(|&b| b == b'(' || b == b')' || blank(b, wrong)).unwrap_or(rest.len());
                all.push(Part::Word(&rest[..len]));
            }
        }
        rest = &rest[len..];
    }
    all
}

/// N, at most `most`.
fn number(word: &[u8], most: u64, wrong: Wrong) -> Option<u64> {
    let digits = std::str::from_utf8(word).ok().filter(|w| w.bytes().all(|b| b.is_ascii_digit()))?;
    if wrong == Wrong::NoLeadingZeros && digits.len() > 1 && digits.starts_with('0') {
        return None;
    }
    let n: u64 = match digits.parse() {
        Err(_) if wrong == Wrong::TooManyDigits && !digits.is_empty() => most,
        n => n.ok()?,
    };
    if wrong == Wrong::TooManyDigits { Some(n.min(most)) } else { Some(n).filter(|&n| n <= most) }
}

fn number32(word: &[u8], wrong: Wrong) -> Option<u32> {
    number(word, u32::MAX as u64, wrong).map(|n| n as u32)
}

/// W.
fn float(word: &[u8], wrong: Wrong) -> Option<f32> {
    let digit = |b: u8| b.is_ascii_digit() || (b'A'..=b'F').contains(&b) || (wrong == Wrong::LowerCaseHex && b.is_ascii_hexdigit());
    let text = std::str::from_utf8(word).ok().filter(|w| w.len() == 8 && w.bytes().all(digit))?;
    u32::from_str_radix(text, 16).ok().map(f32::from_bits)
}

fn flat(rows: [[f32; 4]; 3]) -> [f32; 12] {
    std::array::from_fn(|i| rows[i / 4][i % 4])
}

fn limit(n: usize) -> u32 {
    u32::try_from(n).unwrap_or(u32::MAX)
}

/// What missing forms take: the Rust's default configuration, seed 42, retention 3F666666, no parameters.
fn default_case(wrong: Wrong) -> Case {
    let d = SimulatorConfig::default();
    Case {
        parameters: Vec::new(),
        deck_size: d.deck_size as u32,
        learn_span: if wrong == Wrong::OtherDefaults { 366 } else { d.learn_span as u32 },
        max_cost_perday: d.max_cost_perday,
        max_ivl: d.max_ivl,
        first_rating_prob: d.first_rating_prob,
        review_rating_prob: d.review_rating_prob,
        learn_limit: limit(d.learn_limit),
        review_limit: limit(d.review_limit),
        new_cards_ignore_review_limit: d.new_cards_ignore_review_limit,
        suspend_after_lapses: d.suspend_after_lapses.unwrap_or(u32::MAX),
        learning_step_transitions: flat(d.learning_step_transitions),
        relearning_step_transitions: flat(d.relearning_step_transitions),
        state_rating_costs: flat(d.state_rating_costs),
        learning_step_count: d.learning_step_count as u32,
        relearning_step_count: d.relearning_step_count as u32,
        desired_retention: f32::from_bits(0x3F66_6666),
        seed: 42,
        existing: Vec::new(),
        places: if wrong == Wrong::SmallerTable { 4095 } else { 4096 },
    }
}

/// The words behind a form's name, set in the case.
fn set(case: &mut Case, name: &[u8], words: &[&[u8]], wrong: Wrong) -> Option<()> {
    let floats = |words: &[&[u8]]| words.iter().map(|w| float(w, wrong)).collect::<Option<Vec<f32>>>();
    match (name, words) {
        (b"parameters", [b"all", w]) => case.parameters = vec![float(w, wrong)?; 34],
        (b"parameters", all) if all.len() == 34 => case.parameters = floats(all)?,
        (b"deck", [n]) => case.deck_size = number32(n, wrong)?,
        (b"span", [n]) => case.learn_span = number32(n, wrong)?,
        (b"seed", [n]) => case.seed = number(n, u64::MAX, wrong)?,
        (b"learn", [n]) => case.learn_limit = number32(n, wrong)?,
        (b"review", [n]) => case.review_limit = number32(n, wrong)?,
        (b"retention", [w]) => case.desired_retention = float(w, wrong)?,
        (b"maxcost", [w]) => case.max_cost_perday = float(w, wrong)?,
        (b"first", all) if all.len() == 4 => case.first_rating_prob = floats(all)?.try_into().ok()?,
        (b"cost", [b"all", w]) => case.state_rating_costs = [float(w, wrong)?; 12],
        _ => return None,
    }
    Some(())
}

/// A form; its name is not to be among those seen.
fn form<'a>(case: &mut Case, seen: &mut Vec<&'a [u8]>, parts: &[Part<'a>], wrong: Wrong) -> Option<()> {
    let [Part::Open, Part::Word(name), values @ .., Part::Close] = parts else { return None };
    let words = values.iter().map(|p| if let Part::Word(w) = p { Some(*w) } else { None }).collect::<Option<Vec<_>>>()?;
    if seen.contains(name) && wrong != Wrong::RepeatedForms {
        return None;
    }
    seen.push(name);
    let cut = if wrong == Wrong::WordsJoined && words.is_empty() { name.iter().position(u8::is_ascii_digit) } else { None };
    match cut {
        Some(i) => set(case, &name[..i], &[&name[i..]], wrong),
        None => set(case, name, &words, wrong),
    }
}

/// Lines, each with those that follow it up to its closing bracket.
fn joined(text: &[u8]) -> Vec<Vec<u8>> {
    let mut all: Vec<Vec<u8>> = Vec::new();
    for line in text.split(|&b| b == b'\n') {
        match all.last_mut().filter(|last| last.contains(&b'(') && !last.contains(&b')')) {
            Some(last) => last.extend([b"\n", line].concat()),
            None => all.push(line.to_vec()),
        }
    }
    all
}

/// The case that a text says, or the line of its refusal 11.
pub fn read(text: &[u8], wrong: Wrong) -> Result<Case, u32> {
    let long = text.len() > 32_768;
    if long && wrong != Wrong::SizeLookedAtLast {
        return Err(0);
    }
    let (mut case, mut seen, mut n) = (default_case(wrong), Vec::new(), 0u32);
    let lines = if wrong == Wrong::OverTwoLines { joined(text) } else { text.split(|&b| b == b'\n').map(<[u8]>::to_vec).collect() };
    for line in &lines {
        let parts = parts(line, wrong);
        if parts.is_empty() && wrong == Wrong::BlankLinesNotCounted {
            continue;
        }
        n += 1;
        if !parts.is_empty() {
            form(&mut case, &mut seen, &parts, wrong).ok_or(n)?;
        }
    }
    if long { Err(0) } else { Ok(case) }
}

/// The refusals that come before the run's: 1, and 2 and 3 by the program's own limits.
fn turned_away(case: &Case, wrong: Wrong) -> Option<(u32, u32)> {
    let deck = if wrong == Wrong::LargerDeck { 513 } else { 512 };
    let span = if wrong == Wrong::LongerSpan { 731 } else { 730 };
    let first = faults(&Call::exact("text", case.clone())).into_iter().find(|f| f.0 == 1);
    let second = (!(1..=deck).contains(&case.deck_size)).then_some((2, 0));
    let third = (!(1..=span).contains(&case.learn_span)).then_some((3, 0));
    if wrong == Wrong::DeckBeforeParameters { second.or(first).or(third) } else { first.or(second).or(third) }
}

fn refused(number: u32, second: u32) -> String {
    format!("(refused {number} {second})\n")
}

/// What a case prints.
fn told(case: &Case, wrong: Wrong) -> String {
    if let Some((number, second)) = turned_away(case, wrong) {
        return refused(number, second);
    }
    let r = reference::result(&Call::exact("text", case.clone()));
    if r.number != 0 {
        return refused(r.number, r.second);
    }
    let turns = if wrong == Wrong::CardsForTurns { r.cards as u64 } else { r.turns };
    let mut text = format!("(forecast {} (turns {turns}) (cards {}))\n", case.learn_span, r.cards);
    let word = |bits: u64| if wrong == Wrong::SignOfNan && bits == 0x7FC0_0000 { 0xFFC0_0000 } else { bits };
    for (d, row) in r.days.iter().enumerate() {
        let day = if wrong == Wrong::DaysFromOne { d + 1 } else { d };
        let [learned, reviewed, correct, introduced] = row;
        let counts = format!("(learn {learned}) (review {reviewed}) (correct {correct}) (introduced {introduced})");
        text += &format!("(day {day} {counts} (cost {:08X}) (held {:08X}))\n", word(r.costs[d]), word(r.memorized[d]));
    }
    text
}

/// What the program must print of a text.
pub fn answer(text: &[u8], wrong: Wrong) -> String {
    match read(text, wrong) {
        Err(line) => refused(11, line),
        Ok(case) => told(&case, wrong),
    }
}

/// What the program `cheapest` must print of a text: the retention and the seed play no part.
pub fn cheapest(text: &[u8]) -> String {
    let case = match read(text, Wrong::Nothing) {
        Err(line) => return refused(11, line),
        Ok(case) => case,
    };
    if let Some((number, second)) = turned_away(&case, Wrong::Nothing) {
        return refused(number, second);
    }
    let said = searches::said(&Call::exact("text", case), 64);
    match said.number {
        0 => format!("(cheapest {:08X} (rounds {}) (mean {:08X}))\n", said.retention, said.rounds, said.mean),
        number => refused(number, said.second),
    }
}

/// Whether a search over a text takes little time.
pub fn is_small(text: &[u8]) -> bool {
    read(text, Wrong::Nothing).map_or(true, |case| turned_away(&case, Wrong::Nothing).is_some() || case.deck_size * case.learn_span < 300)
}

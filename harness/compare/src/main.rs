//! Compares the port with the Rust of the reference. `harness/run` builds and starts it, and says what each command does.
mod bench;
mod calls;
mod cases;
mod edges;
mod findings;
mod floats;
mod generate;
mod leaf;
mod lent;
mod lists;
mod planted;
mod port;
mod reference;
mod result;
mod rules;
mod runs;
mod searches;
mod spoils;
mod stored;
mod stored_leaves;
mod stored_points;
mod stored_runs;
mod stored_texts;
mod text;
mod text_cases;
mod texts;

fn number(words: &[String], i: usize, default: u64) -> u64 {
    words.get(i).map_or(default, |w| w.parse().unwrap_or_else(|_| panic!("not a number: {w}")))
}

fn main() {
    let words: Vec<String> = std::env::args().skip(1).collect();
    match words.iter().map(String::as_str).collect::<Vec<_>>()[..] {
        ["leaf", ..] => leaf::main(number(&words, 1, 100), number(&words, 2, 1)),
        ["edges"] => edges::main(),
        ["findings"] => findings::main(),
        ["runs", ..] => runs::main(number(&words, 1, 1000), number(&words, 2, 1)),
        ["search", ..] => searches::main(number(&words, 1, 100), number(&words, 2, 1)),
        ["planted", ..] => planted::main(number(&words, 1, 3000)),
        ["bench", _, "port"] => bench::port_alone(number(&words, 1, 5)),
        ["bench", _, "search"] => searches::bench(number(&words, 1, 3)),
        ["bench", _, "tables"] => bench::tables(number(&words, 1, 5)),
        ["bench", ..] => bench::main(number(&words, 1, 5)),
        ["texts", program, ..] => texts::main(program, number(&words, 2, 1000), number(&words, 3, 1)),
        ["cheapest", program, ..] => texts::searched(program, number(&words, 2, 100), number(&words, 3, 1)),
        ["short", program] => texts::short(program),
        ["store", crates] => stored::main(crates),
        _ => panic!("a command of harness/run is needed"),
    }
}

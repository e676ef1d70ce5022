//! The built programs `forecast` and `cheapest`, the texts of examples/ as calls, and a usual list of parameters.
use std::io::Write;
use std::path::PathBuf;
use std::process::{Command, Stdio};
use street_drill::SimulatorConfig;

/// A usual list of parameters, that of the texts of examples/.
#[rustfmt::skip]
pub const USUAL: [f32; 34] = [
    0.1104, 2.2395, 3.9221, 11.7841, 6.1686, 0.6457, 3.0194, 3.3722, 0.1666, 0.796, 1.4, 0.2629,
    1.6483, 0.6014, 1.8729, 3.3722, 0.1666, 0.796, 1.4, 0.2629, 1.6483, 0.6014, 1.8729,
    0.0392, 0.242, 0.6675, 0.9137, 0.4717, 0.4885, 0.8136, 0.698, 0.4621, 0.6547, 0.308,
];

fn in_repository(path: &str) -> PathBuf {
    PathBuf::from(env!("CARGO_MANIFEST_DIR")).join("../..").join(path)
}

/// A text of the repository's examples/.
pub fn example(name: &str) -> String {
    std::fs::read_to_string(in_repository("examples").join(name)).expect("the example can be read")
}

/// What a built program prints for a text.
pub fn printed(program: &str, text: &str) -> String {
    let path = in_repository("target/bin").join(program);
    let mut child = Command::new(&path)
        .stdin(Stdio::piped())
        .stdout(Stdio::piped())
        .spawn()
        .unwrap_or_else(|e| panic!("{} does not start ({e}): `tools/build {program}` writes it", path.display()));
    child.stdin.take().unwrap().write_all(text.as_bytes()).expect("the program reads its input");
    String::from_utf8(child.wait_with_output().unwrap().stdout).expect("the program prints ASCII")
}

/// The words of a line without its brackets.
pub fn words(line: &str) -> Vec<&str> {
    line.split(['(', ')', ' ']).filter(|word| !word.is_empty()).collect()
}

/// A float that is written by its bits.
pub fn float(word: &str) -> f32 {
    f32::from_bits(u32::from_str_radix(word, 16).expect("eight hex digits"))
}

/// The inputs of a text's run.
pub struct Settings {
    pub config: SimulatorConfig,
    pub parameters: Vec<f32>,
    pub retention: f32,
    pub seed: u64,
}

/// A text that has no fault, read as the program reads it.
pub fn settings(text: &str) -> Settings {
    let mut s = Settings { config: SimulatorConfig::default(), parameters: vec![], retention: 0.9, seed: 42 };
    for line in text.lines() {
        match words(line)[..] {
            ["parameters", "all", w] => s.parameters = vec![float(w); 34],
            ["parameters", ref w @ ..] => s.parameters = w.iter().map(|w| float(w)).collect(),
            ["deck", n] => s.config.deck_size = n.parse().unwrap(),
            ["span", n] => s.config.learn_span = n.parse().unwrap(),
            ["seed", n] => s.seed = n.parse().unwrap(),
            ["learn", n] => s.config.learn_limit = n.parse().unwrap(),
            ["review", n] => s.config.review_limit = n.parse().unwrap(),
            ["retention", w] => s.retention = float(w),
            ["maxcost", w] => s.config.max_cost_perday = float(w),
            ["first", again, hard, good, easy] => s.config.first_rating_prob = [again, hard, good, easy].map(float),
            ["cost", "all", w] => s.config.state_rating_costs = [[float(w); 4]; 3],
            _ => panic!("no form: {line}"),
        }
    }
    s
}

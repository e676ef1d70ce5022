//! Every leaf on generated inputs, bit for bit; a file for each crate. A leaf's inputs are words: floats by their bits.
mod of_draws;
mod of_elementary;
mod of_floats;
mod of_keys;
mod of_memory;

use crate::floats::bits;
use crate::generate::Words;
use std::collections::HashSet;

pub use of_elementary::wrong;

/// What the port answers and what the reference answers.
pub type Answers = (u64, u64);

pub struct Leaf {
    pub name: &'static str,
    pub make: fn(&mut Words) -> Vec<u64>,
    pub run: fn(&[u64]) -> Answers,
    /// Comparisons at scale 1.
    pub times: u64,
}

fn f(x: u64) -> f32 {
    f32::from_bits(x as u32)
}

fn floats(n: usize, words: &mut Words) -> Vec<u64> {
    (0..n).map(|_| words.float().to_bits() as u64).collect()
}

fn with_parameters(words: &mut Words, more: impl Fn(&mut Words) -> Vec<f32>, rating: bool) -> Vec<u64> {
    let mut v: Vec<u64> = words.parameters().iter().map(|x| x.to_bits() as u64).collect();
    v.extend(more(words).iter().map(|x| x.to_bits() as u64));
    if rating {
        v.push(1 + words.below(4));
    }
    v
}

fn list(v: &[u64]) -> [f32; 34] {
    std::array::from_fn(|i| f(v[i]))
}

fn longest(words: &mut Words) -> f32 {
    words.pick(&[1.0, 1.5, 2.9999998, 30.0, 365.0, 36500.0, 36500.0, 36500.0])
}

fn same(ours: f32, theirs: f32) -> Answers {
    (bits(ours), bits(theirs))
}

fn alike(ours: bool, theirs: bool) -> Answers {
    (u64::from(ours), u64::from(theirs))
}

fn equal(ours: u32, theirs: u32) -> Answers {
    (ours as u64, theirs as u64)
}

fn leaf(name: &'static str, times: u64, make: fn(&mut Words) -> Vec<u64>, run: fn(&[u64]) -> Answers) -> Leaf {
    Leaf { name, times, make, run }
}

pub fn leaves() -> Vec<Leaf> {
    let files = [of_floats::of_floats(), of_elementary::of_elementary(), of_draws::of_draws(), of_memory::of_memory(), of_keys::of_keys()];
    files.into_iter().flatten().collect()
}

/// Simpler words for one that shows a difference.
fn simpler(word: u64) -> Vec<u64> {
    let mut v: Vec<u64> = vec![0, 1, 2, 0x3F80_0000, 0x3F00_0000, 0x4000_0000, 0x4120_0000];
    for drop in [22, 16, 12, 8, 4] {
        v.push(word >> drop << drop);
    }
    v
}

/// Makes the inputs of a difference simpler, one by one, as long as it shows.
fn shrink(leaf: &Leaf, mut inputs: Vec<u64>) -> Vec<u64> {
    let differs = |v: &[u64]| std::panic::catch_unwind(|| (leaf.run)(v)).is_ok_and(|(ours, theirs)| ours != theirs);
    for _ in 0..3 {
        for i in 0..inputs.len() {
            for word in simpler(inputs[i]) {
                let mut v = inputs.clone();
                v[i] = word;
                if word < inputs[i] && differs(&v) {
                    inputs = v;
                }
            }
        }
    }
    inputs
}

fn report(leaf: &Leaf, inputs: Vec<u64>) -> ! {
    std::panic::set_hook(Box::new(|_| {}));
    let inputs = shrink(leaf, inputs);
    let (ours, theirs) = (leaf.run)(&inputs);
    println!("DIFFERENCE in {}", leaf.name);
    println!("  inputs {}", inputs.iter().map(|x| format!("{x:08X}")).collect::<Vec<_>>().join(" "));
    println!("  port {ours:08X}, reference {theirs:08X}");
    std::process::exit(1)
}

/// The words of a leaf, from a seed.
fn words_of(leaf: &Leaf, seed: u64) -> Words {
    Words::new(seed ^ leaf.name.bytes().fold(0, |a, b| a * 31 + b as u64))
}

/// The first inputs of so many on which the answers differ.
pub fn first_difference(leaf: &Leaf, times: u64, seed: u64) -> Option<Vec<u64>> {
    let mut words = words_of(leaf, seed);
    (0..times).map(|_| (leaf.make)(&mut words)).find(|inputs| {
        let (ours, theirs) = (leaf.run)(inputs);
        ours != theirs
    })
}

/// How many answers the reference gave, up to a thousand.
fn variety(leaf: &Leaf, times: u64, seed: u64) -> usize {
    let mut words = words_of(leaf, seed);
    let mut seen = HashSet::new();
    for _ in 0..times.min(3000) {
        seen.insert((leaf.run)(&(leaf.make)(&mut words)).1);
    }
    seen.len()
}

pub fn main(scale: u64, seed: u64) {
    let mut total = 0;
    for leaf in leaves() {
        let times = leaf.times * scale;
        if let Some(inputs) = first_difference(&leaf, times, seed) {
            report(&leaf, inputs);
        }
        println!("{:<34} {times:>9} alike, {} answers in the first 3000", leaf.name, variety(&leaf, times, seed));
        total += times;
    }
    total += crate::lists::main(scale, seed);
    println!("leaf: {total} comparisons, no difference (seed {seed})");
}

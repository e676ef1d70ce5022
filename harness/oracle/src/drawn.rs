//! The draws of `ours`, by a rule that can be set: the port's C functions, or the same rule in Rust.
use crate::native::{self, Draws};
use std::cell::Cell;

pub use crate::native::WeightedIndex;

unsafe extern "C" {
    fn drill_next(state: *mut u64) -> u64;
    fn drill_word(output: u64) -> u32;
    fn drill_weighted_index(weights: *const f32, len: usize, word: u32) -> usize;
    fn drill_recalled(chance: f32, word: u32) -> bool;
}

/// How a state gives its next word, which weight a word chooses, and whether it recalls at a chance.
#[derive(Clone, Copy)]
pub struct Rule {
    pub word: fn(&mut u64) -> u32,
    pub rating: fn(&[f32], u32) -> usize,
    pub recalled: fn(f32, u32) -> bool,
}

pub const PORTS: Rule = Rule {
    word: |state| unsafe { drill_word(drill_next(state)) },
    rating: |weights, word| unsafe { drill_weighted_index(weights.as_ptr(), weights.len(), word) },
    recalled: |chance, word| unsafe { drill_recalled(chance, word) },
};

pub const OWN: Rule = Rule { word: native::word, rating: native::rating, recalled: native::recalled };

thread_local! {
    static RULE: Cell<Rule> = const { Cell::new(PORTS) };
}

/// Runs draw by this rule from now on.
pub fn go_by(rule: Rule) {
    RULE.set(rule);
}

pub struct StdRng {
    pub state: u64,
    pub count: u64,
}

impl StdRng {
    pub fn seed_from_u64(seed: u64) -> StdRng {
        StdRng { state: seed, count: 0 }
    }

    fn word(&mut self) -> u32 {
        self.count += 1;
        (RULE.get().word)(&mut self.state)
    }

    /// Nothing, and nothing drawn, where the chance is not from 0 to 1.
    pub fn recall(&mut self, chance: f32) -> Option<bool> {
        if (0.0..=1.0).contains(&chance) {
            let word = self.word();
            Some((RULE.get().recalled)(chance, word))
        } else {
            None
        }
    }
}

impl Draws for StdRng {
    fn rating(&mut self, weights: &[f32]) -> usize {
        let word = self.word();
        (RULE.get().rating)(weights, word)
    }
}

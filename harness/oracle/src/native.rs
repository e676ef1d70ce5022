//! The draws in Rust: SplitMix64, a rating by weights, a recall.
pub struct StdRng {
    pub state: u64,
    pub count: u64,
}

pub fn advance(state: u64) -> u64 {
    state.wrapping_add(0x9E37_79B9_7F4A_7C15)
}

pub fn mix(state: u64) -> u64 {
    let z = (state ^ (state >> 30)).wrapping_mul(0xBF58_476D_1CE4_E5B9);
    let z = (z ^ (z >> 27)).wrapping_mul(0x94D0_49BB_1331_11EB);
    z ^ (z >> 31)
}

pub fn unit(word: u32) -> f32 {
    (word >> 8) as f32 / 16_777_216.0
}

/// The index of the weight that a word chooses.
pub fn rating(weights: &[f32], word: u32) -> usize {
    let total = weights.iter().fold(0.0f32, |sum, w| sum + w);
    let target = unit(word) * total;
    let mut sum = 0.0f32;
    for (i, w) in weights.iter().enumerate() {
        sum += w;
        if sum > target {
            return i;
        }
    }
    weights.iter().rposition(|&w| w > 0.0).unwrap_or(0)
}

pub fn recalled(chance: f32, word: u32) -> bool {
    unit(word) < chance
}

/// The next word of a state.
pub fn word(state: &mut u64) -> u32 {
    *state = advance(*state);
    (mix(*state) >> 32) as u32
}

impl StdRng {
    pub fn seed_from_u64(seed: u64) -> StdRng {
        StdRng { state: seed, count: 0 }
    }

    pub fn word(&mut self) -> u32 {
        self.count += 1;
        word(&mut self.state)
    }

    pub fn random_bool(&mut self, chance: f64) -> bool {
        assert!((0.0..=1.0).contains(&chance), "a chance outside 0 to 1");
        recalled(chance as f32, self.word())
    }
}

/// What a `WeightedIndex` asks of a generator.
pub trait Draws {
    fn rating(&mut self, weights: &[f32]) -> usize;
}

impl Draws for StdRng {
    fn rating(&mut self, weights: &[f32]) -> usize {
        rating(weights, self.word())
    }
}

pub struct WeightedIndex {
    weights: Vec<f32>,
}

impl WeightedIndex {
    pub fn new(weights: impl AsRef<[f32]>) -> Result<WeightedIndex, ()> {
        Ok(WeightedIndex { weights: weights.as_ref().to_vec() })
    }

    pub fn sample(&self, rng: &mut impl Draws) -> usize {
        rng.rating(&self.weights)
    }
}

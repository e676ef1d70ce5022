//! Generated inputs: bit patterns from everywhere, from the edges, and from where the model lives.
use oracle::native::{advance, mix};

pub struct Words {
    state: u64,
}

/// Where the rules turn: zeros, ones, halves, ends of ranges and formats, infinities, a NaN, ends of the exp range.
pub const EDGES: [u32; 40] = [
    0,
    0x8000_0000,
    1,
    0x8000_0001,
    0x007F_FFFF,
    0x0080_0000,
    0x8080_0000,
    0x3F80_0000,
    0xBF80_0000,
    0x3F00_0000,
    0xBF00_0000,
    0x3EFF_FFFF,
    0x4020_0000,
    0xC020_0000,
    0x3F7F_FFFF,
    0x3F80_0001,
    0x4B00_0000,
    0x4AFF_FFFF,
    0x4B7F_FFFF,
    0x4F00_0000,
    0xCF00_0000,
    0x4EFF_FFFF,
    0x4F80_0000,
    0x4F7F_FFFF,
    0x7F7F_FFFF,
    0xFF7F_FFFF,
    0x7F80_0000,
    0xFF80_0000,
    0x7FC0_0000,
    0x38D1_B717,
    0x470E_9400,
    0x3F7F_F972,
    0x3F66_6666,
    0x40A0_0000,
    0x4120_0000,
    0x3089_705F,
    0x42B1_7218,
    0x42B1_7217,
    0xC2AE_AC50,
    0xC2AE_AC4F,
];

impl Words {
    pub fn new(seed: u64) -> Words {
        Words { state: seed.wrapping_mul(0xD134_2543_DE82_EF95) }
    }

    pub fn next(&mut self) -> u64 {
        self.state = advance(self.state);
        mix(self.state)
    }

    pub fn below(&mut self, n: u64) -> u64 {
        self.next() % n
    }

    pub fn chance(&mut self, one_in: u64) -> bool {
        self.below(one_in) == 0
    }

    pub fn pick<T: Copy>(&mut self, from: &[T]) -> T {
        from[self.below(from.len() as u64) as usize]
    }

    /// From low to high, evenly.
    pub fn between(&mut self, low: f32, high: f32) -> f32 {
        (low as f64 + (high as f64 - low as f64) * (self.next() >> 11) as f64 / (1u64 << 53) as f64) as f32
    }

    /// From low to high, evenly by logarithm.
    pub fn scaled(&mut self, low: f32, high: f32) -> f32 {
        (self.between(low.ln(), high.ln()) as f64).exp() as f32
    }

    /// Any float.
    pub fn float(&mut self) -> f32 {
        f32::from_bits(match self.below(8) {
            0 => self.pick(&EDGES),
            1 => self.pick(&EDGES).wrapping_add(self.below(5) as u32).wrapping_sub(2),
            2 => self.between(-10.0, 10.0).to_bits(),
            3 => (self.between(-1000.0, 1000.0).floor() / 2.0).to_bits(),
            4 => self.scaled(1e-6, 1e6).to_bits(),
            5 => (-self.scaled(1e-6, 1e10)).to_bits(),
            _ => self.next() as u32,
        })
    }

    pub fn finite(&mut self) -> f32 {
        loop {
            let x = self.float();
            if x.is_finite() {
                return x;
            }
        }
    }

    /// Mostly one of the model's stabilities.
    pub fn stability(&mut self) -> f32 {
        if self.chance(8) { self.float() } else { self.scaled(1e-4, 36500.0) }
    }

    pub fn difficulty(&mut self) -> f32 {
        if self.chance(8) { self.float() } else { self.between(1.0, 10.0) }
    }

    pub fn retention(&mut self) -> f32 {
        match self.below(8) {
            0 => self.float(),
            1 => self.between(-0.5, 1.5),
            2 => self.pick(&[0.0, 1.0, 0.9999, 0.0001, 0.99990004, 0.99, 0.7, 0.95]),
            _ => self.between(0.5, 0.999),
        }
    }

    /// Days since an event.
    pub fn time(&mut self) -> f32 {
        match self.below(8) {
            0 => self.float(),
            1 => 0.0,
            2 => self.between(-20.0, 0.0),
            3 => self.scaled(1e-5, 1e5),
            _ => self.below(2000) as f32,
        }
    }

    /// 34 parameters: near a usual list, anywhere in the usual ranges, or any finite numbers.
    pub fn parameters(&mut self) -> Vec<f32> {
        let kind = self.below(8);
        let mut w: Vec<f32> = crate::cases::USUAL.to_vec();
        match kind {
            0 => w.iter_mut().for_each(|x| *x = self.finite()),
            1 => w.iter_mut().for_each(|x| *x = self.between(-2.0, 2.0)),
            2 => w.iter_mut().for_each(|x| *x = self.between(0.0, 1.0)),
            3 => {
                let i = self.below(34) as usize;
                w[i] = self.finite();
            }
            4 => {
                let i = 23 + self.below(11) as usize;
                w[i] = self.pick(&[0.0, -0.0, 1.0, -1.0, 0.3, 0.5, 1e-3, 5.0, 100.0, 1e-30]);
            }
            _ => w.iter_mut().for_each(|x| *x *= self.between(0.5, 1.5)),
        }
        w
    }

    /// Parameters of a curve that is flat far out: there a held interval that is certified may be another than a fresh one.
    pub fn flat_parameters(&mut self) -> Vec<f32> {
        let mut w = crate::cases::USUAL.to_vec();
        w[23] = self.scaled(0.001, 0.05);
        w[24] = self.scaled(0.01, 0.08);
        w[25] = self.between(0.6, 0.98);
        w[26] = self.between(0.6, 0.98);
        w[29] = self.between(0.0, 0.3);
        w[30] = self.between(0.0, 0.3);
        w[33] = 0.3;
        w
    }
}

// Inside the patched model_v7.rs of `hoisted`: what stays the same along a forgetting curve, computed once.
use super::super::{D_MAX, D_MIN, S_MIN};
use super::*;

/// What the parameters decide.
pub struct Constants {
    w: [f32; 34],
    power: f32,
    log: f32,
    decay: f32,
    factor: f32,
    pace: f32,
    share: f32,
}

impl Constants {
    pub fn of(w: &[f32]) -> Constants {
        let decay = -w[24].clamp(0.01, 0.95);
        Constants {
            w: w.try_into().unwrap(),
            power: w[33] - 0.3,
            log: w[25].ln(),
            decay,
            factor: w[26].powf(1.0 / decay) - 1.0,
            pace: w[32] - 0.3,
            share: w[31] - 0.5,
        }
    }
}

/// What a memory state decides with them.
pub struct Curve {
    slow: f32,
    fast: f32,
    decays: [f32; 2],
    factors: [f32; 2],
    timescale: f32,
    rate: f32,
    weights: [f32; 2],
}

impl Curve {
    pub fn new(c: &Constants, state: MemoryState) -> Curve {
        let slow = state.stability.max(S_MIN);
        let fast = state.stability_fast.max(S_MIN);
        let off = state.difficulty.clamp(D_MIN, D_MAX) - 5.0;
        let decay = -(c.w[23] * fast.powf(c.power)).clamp(0.01, 0.95);
        let timescale = (off * c.pace).exp();
        Curve {
            slow,
            fast,
            decays: [decay, c.decay],
            factors: [((c.log / decay).min(60.0)).exp() - 1.0, c.factor],
            timescale,
            rate: c.factor * timescale,
            weights: [c.w[27] * fast.powf(-c.w[29]), c.w[28] * slow.powf(c.w[30]) * (off * c.share).exp()],
        }
    }

    fn bases(&self, t: f32) -> [f32; 2] {
        [1.0 + self.factors[0] * (t / self.fast), 1.0 + self.rate * (t / self.slow)]
    }

    fn weighted(&self, x: [f32; 2]) -> f32 {
        self.weights[0] * x[0] + self.weights[1] * x[1]
    }

    fn powers(&self, b: [f32; 2]) -> [f32; 2] {
        [b[0].powf(self.decays[0]), b[1].powf(self.decays[1])]
    }

    pub fn retention(&self, t: f32) -> f32 {
        let recalled = self.weighted(self.powers(self.bases(t.max(0.0)))) / (self.weights[0] + self.weights[1]);
        recalled.mul_add(1.0 - 2e-5, 1e-5)
    }

    pub fn retention_and_derivative(&self, t: f32) -> (f32, f32) {
        let b = self.bases(t.max(0.0));
        let slopes = [
            self.decays[0] * b[0].powf(self.decays[0] - 1.0) * self.factors[0] / self.fast,
            self.decays[1] * b[1].powf(self.decays[1] - 1.0) * self.factors[1] * self.timescale / self.slow,
        ];
        let sum = (self.weights[0] + self.weights[1]).max(1e-9);
        ((self.weighted(self.powers(b)) / sum).mul_add(1.0 - 2e-5, 1e-5), self.weighted(slopes) / sum * (1.0 - 2e-5))
    }
}

impl Fsrs7Runtime {
    pub fn curve(&self, stability: f32) -> Curve {
        Curve::new(&self.constants, MemoryState { stability, difficulty: 5.0, stability_fast: stability })
    }
}

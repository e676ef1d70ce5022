//! Floats by their bits.

/// All NaNs are one.
pub fn bits(x: f32) -> u64 {
    if x.is_nan() { 0x7FC0_0000 } else { x.to_bits() as u64 }
}

pub fn pattern(x: f32) -> u32 {
    bits(x) as u32
}

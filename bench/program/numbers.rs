//! Numbers without an order, pairs of glyphs, and what is made of times.

use std::collections::HashSet;

/// The same sequence for the same seed (splitmix64).
pub struct Numbers(u64);

impl Numbers {
    pub fn new(seed: u64) -> Self {
        Numbers(seed)
    }

    pub fn next(&mut self) -> u64 {
        self.0 = self.0.wrapping_add(0x9e37_79b9_7f4a_7c15);
        let z = (self.0 ^ (self.0 >> 30)).wrapping_mul(0xbf58_476d_1ce4_e5b9);
        let z = (z ^ (z >> 27)).wrapping_mul(0x94d0_49bb_1331_11eb);
        z ^ (z >> 31)
    }

    pub fn below(&mut self, n: usize) -> usize {
        (u128::from(self.next()) * n as u128 >> 64) as usize
    }

    pub fn shuffle<T>(&mut self, list: &mut [T]) {
        for i in (1..list.len()).rev() {
            list.swap(i, self.below(i + 1));
        }
    }
}

pub type Pair = (u16, u16);

/// The fingerprint of a pair by docs/FINGERPRINTS.md. No two pairs share one.
pub fn fingerprint((left, right): Pair) -> u64 {
    let both = u32::from(left) << 16 | u32::from(right);
    u64::from(both.wrapping_mul(2_654_435_769).rotate_left(16))
}

/// Distinct pairs, of which the first `held` are to be held, and the others not.
pub struct Pairs {
    pub all: Vec<Pair>,
    pub held: usize,
}

impl Pairs {
    pub fn new(numbers: &mut Numbers, held: usize, absent: usize) -> Self {
        let mut seen = HashSet::with_capacity(held + absent);
        let mut all = Vec::with_capacity(held + absent);
        while all.len() < held + absent {
            let n = numbers.next();
            let pair = (n as u16, (n >> 16) as u16);
            if seen.insert(pair) {
                all.push(pair);
            }
        }
        Pairs { all, held }
    }

    pub fn held(&self) -> Vec<u64> {
        self.all[..self.held]
            .iter()
            .copied()
            .map(fingerprint)
            .collect()
    }

    pub fn absent(&self) -> Vec<u64> {
        self.all[self.held..]
            .iter()
            .copied()
            .map(fingerprint)
            .collect()
    }
}

/// The middle one of some times.
pub fn middle(times: &[f64]) -> f64 {
    let mut times = times.to_vec();
    times.sort_by(f64::total_cmp);
    times.get(times.len() / 2).copied().unwrap_or(f64::NAN)
}

/// Whether the processor has what is compiled for it.
pub fn has_feature(name: &str) -> bool {
    match name {
        "popcnt" => is_x86_feature_detected!("popcnt") && is_x86_feature_detected!("sse4.2"),
        _ => {
            is_x86_feature_detected!("bmi1")
                && is_x86_feature_detected!("bmi2")
                && is_x86_feature_detected!("lzcnt")
        }
    }
}

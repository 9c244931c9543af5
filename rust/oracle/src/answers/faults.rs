//! What calls are handed that the specification's table refuses.

use crate::spec::refusals::{least, NONE};

/// The longest lent array of a refusal.
pub const ARRAY_MAX: u64 = 8000;

pub const BAD_VARS: [u64; 5] = [0, 7, 8, 256 + 2, u32::MAX as u64];
pub const BAD_WIDTHS: [u64; 5] = [0, 65, 66, 128, u32::MAX as u64];
/// Widths with the least word that is too large.
pub const TOO_LARGE: [(u32, u64); 4] = [(1, 2), (8, 256), (32, 1 << 32), (63, 1 << 63)];
/// Counts that no array has; some are small when cut to fewer bits, or sixteen times them is.
pub const HUGE: [u64; 5] = [1 << 32, (1 << 32) + 3, 1 << 60, (1 << 60) + 3, u64::MAX];

/// Something wrong, and what it alone is refused with.
pub struct Fault<Handed> {
    pub make: fn(&mut Handed),
    pub refusal: u64,
}

/// What is good, made wrong by each two faults, each three, and all; with what it is refused with then.
pub fn faulty<Handed: Clone>(good: &Handed, faults: &[Fault<Handed>]) -> Vec<(Handed, u64)> {
    let mut all = Vec::new();
    let mut counts = vec![2, 3, faults.len() as u32];
    counts.sort();
    counts.dedup();
    for count in counts {
        for members in (0u32..1 << faults.len()).filter(|set| set.count_ones() == count) {
            let (mut handed, mut refusal) = (good.clone(), NONE);
            for (_, fault) in (0..)
                .zip(faults)
                .filter(|(place, _)| members >> place & 1 == 1)
            {
                (fault.make)(&mut handed);
                refusal = least(refusal, fault.refusal);
            }
            all.push((handed, refusal));
        }
    }
    all
}

//! `crate::ir::math_utils`: the inverse that the product filter uses, by the specification's definition.

/// The number below 2^k with product 1 with `m` modulo 2^k, for odd `m` and k from 1 to 64. With the feature `newton`, which only the
/// benchmark asks for (and what is built in one command with it), by Newton's steps: 64 turns for each atom would make the originals
/// slower than they are.
pub fn mod_inverse_odd(m: u64, k: u32) -> u64 {
    assert!(m % 2 == 1 && (1..=64).contains(&k));
    if cfg!(feature = "newton") {
        by_newton(m, k)
    } else {
        bit_by_bit(m, k)
    }
}

/// By other means than the Newton steps of the proved program: bit i is set exactly where the product would else be wrong at bit i
/// (`m` is odd, so setting it turns that bit of the product over and leaves the lower ones).
fn bit_by_bit(m: u64, k: u32) -> u64 {
    let mut inverse = 0u64;
    for i in 0..k {
        let wanted = u64::from(i == 0);
        if (m.wrapping_mul(inverse) >> i) & 1 != wanted {
            inverse |= 1 << i;
        }
    }
    inverse
}

/// `m` is its own inverse modulo 8; each step doubles the bits that are right: 3, 6, 12, 24, 48, 64.
fn by_newton(m: u64, k: u32) -> u64 {
    let mut inverse = m;
    for _ in 0..5 {
        inverse = inverse.wrapping_mul(2u64.wrapping_sub(m.wrapping_mul(inverse)));
    }
    inverse & (u64::MAX >> (64 - k))
}

#[cfg(test)]
mod tests {
    use super::{bit_by_bit, by_newton};
    use crate::inputs::Inputs;

    #[test]
    fn both_ways_give_one_inverse() {
        let mut inputs = Inputs::from_seed(0);
        for k in 1..=64 {
            for m in [1, u64::MAX, inputs.word() | 1, inputs.word_of_width(k) | 1] {
                let inverse = bit_by_bit(m, k);
                assert_eq!(by_newton(m, k), inverse);
                assert_eq!(m.wrapping_mul(inverse) & (u64::MAX >> (64 - k)), 1);
            }
        }
    }
}

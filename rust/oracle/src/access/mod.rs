//! Reaches the private functions of template_decomposer.rs, with plain numbers in and out.
//!
//! build.rs makes this file a child module of that original, so `super` is the original. Widths are handed in as
//! numbers and become masks by the original `bitmask`; gates are their numbers (0 And, 1 Or, 2 Xor, 3 Add, 4 Mul).
//! Nothing is refused here: what the original does not expect, it is not to be asked. This file has words, points and
//! gates on rows; its child modules have the rest.

mod bank;
mod formulas;
mod index;
mod least;
mod residual;
mod search;

use super::{ProbeVals, ALL_GATES, N_PROBES};

pub use bank::{bank, AtomView, Pool};
pub use formulas::{compute_cost, eval, evals, expr_of, is_better, Cost, Formula};
pub use index::{index, IndexView, Inner};
pub use least::{count_products_over, least_product_over, Opcodes};
pub use residual::{completion_over, completions, Completion, Part};
pub use search::{candidates, layer1, layer2, least_products, product_loops, two_atoms, Trial};

/// A row: the values at the sixteen points.
pub type Row = [u64; N_PROBES];

/// `bitmask` of arith.rs.
pub fn bitmask(width: u32) -> u64 {
    super::bitmask(width)
}

/// `mod_add`, `mod_sub`, `mod_mul`, `mod_neg` and `mod_not` of arith.rs, the last two of a.
pub fn sums(a: u64, b: u64, width: u32) -> [u64; 5] {
    use crate::core::arith::{mod_add, mod_mul, mod_neg, mod_not, mod_sub};
    [
        mod_add(a, b, width),
        mod_sub(a, b, width),
        mod_mul(a, b, width),
        mod_neg(a, width),
        mod_not(a, width),
    ]
}

/// `mod_inverse_odd` as the original calls it: the stand-in.
pub fn mod_inverse_odd(m: u64, k: u32) -> u64 {
    crate::ir::math_utils::mod_inverse_odd(m, k)
}

/// One step of `splitmix64`: the state after it, and the word.
pub fn splitmix64(state: u64) -> (u64, u64) {
    let mut state = state;
    let word = super::splitmix64(&mut state);
    (state, word)
}

/// `make_probe_points`: sixteen points of `num_vars` words each.
pub fn make_probe_points(num_vars: u32, width: u32) -> Vec<Vec<u64>> {
    super::make_probe_points(num_vars, width)
}

/// `ProbeVals::fingerprint`.
pub fn fingerprint(row: Row) -> u64 {
    ProbeVals(row).fingerprint()
}

/// `ProbeVals::apply_gate`, which is `gate_apply` of cobra-simd.
pub fn gate_apply(a: Row, b: Row, gate: usize, width: u32) -> Row {
    ProbeVals(a)
        .apply_gate(&ProbeVals(b), ALL_GATES[gate], bitmask(width))
        .0
}

/// `ProbeVals::residual`, which is `gate_residual` of cobra-simd.
pub fn gate_residual(target: Row, a: Row, gate: usize, width: u32) -> Row {
    ProbeVals(target)
        .residual(&ProbeVals(a), ALL_GATES[gate], bitmask(width))
        .0
}

/// `gate_matches`, which is that of cobra-simd.
pub fn gate_matches(a: Row, b: Row, target: Row, gate: usize, width: u32) -> bool {
    super::gate_matches(
        &ProbeVals(a),
        &ProbeVals(b),
        &ProbeVals(target),
        ALL_GATES[gate],
        bitmask(width),
    )
}

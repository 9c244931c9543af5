//! The cheapest product in plain Rust, over the originals' filter and matches: what our search is timed beside.

use super::super::{
    collect_mul_probe0_candidates, mul_matches, probe0_matches, Atom, InnerCompositions, ProbeVals,
};
use super::bank::Pool;
use super::index::Inner;
use super::search::Trial;
use super::{Cost, Row};
use crate::simd::Gate;

/// The token places of an atom.
const ATOM_TOKENS: usize = 6;

/// The tokens that a cost is worked out from: recorded lengths, and six places for opcodes each.
#[derive(Clone, Copy)]
pub struct Opcodes<'a> {
    pub lengths: &'a [u32],
    pub ops: &'a [u8],
}

/// The cheapest product, first among equals: layers 1 and 2 over all atoms, each to its end.
pub fn least_product_over(
    target: Row,
    pool: &Pool,
    inner: &Inner,
    opcodes: Opcodes<'_>,
    width: u32,
) -> Option<Trial> {
    let inner = &inner.0;
    let mut least = Least::new(opcodes, pool.atoms.len(), inner);
    each_product(&ProbeVals(target), &pool.atoms, inner, width, |trial| {
        least.take(trial)
    });
    least.kept.map(|(_, trial)| trial)
}

/// How many products are the target.
pub fn count_products_over(target: Row, pool: &Pool, inner: &Inner, width: u32) -> usize {
    let mut count = 0;
    each_product(&ProbeVals(target), &pool.atoms, &inner.0, width, |_| {
        count += 1
    });
    count
}

/// Every product of two atoms, then of an atom and a pair, that is the target. Layers 1 and 2 as they are, but that a hit is handed on.
#[inline(always)]
fn each_product(
    target: &ProbeVals,
    pool: &[Atom],
    inner_cache: &InnerCompositions,
    bw: u32,
    mut hit: impl FnMut(Trial),
) {
    let mask = super::bitmask(bw);
    for (a, ai) in pool.iter().enumerate() {
        for (b, bi) in pool.iter().enumerate() {
            if probe0_matches(ai.vals.0[0], bi.vals.0[0], target.0[0], Gate::Mul, mask)
                && mul_matches(&ai.vals, &bi.vals, target, mask, 1)
            {
                hit(Trial::Atoms(a, b));
            }
        }
    }
    let inner = &inner_cache.comps;
    let mut mul_candidates: Vec<usize> = Vec::new();
    for (a, ai) in pool.iter().enumerate() {
        let used_filter = collect_mul_probe0_candidates(
            &inner_cache.mul_probe0_buckets,
            ai.vals.0[0],
            target.0[0],
            bw,
            &mut mul_candidates,
        );
        if used_filter {
            for &pair in &mul_candidates {
                if mul_matches(&ai.vals, &inner[pair].vals, target, mask, 1) {
                    hit(Trial::AtomPair(a, pair));
                }
            }
            continue;
        }
        for (pair, ii) in inner.iter().enumerate() {
            if mul_matches(&ai.vals, &ii.vals, target, mask, 0) {
                hit(Trial::AtomPair(a, pair));
            }
        }
    }
}

/// The least so far. The atoms' costs are worked out once something fits.
struct Least<'a> {
    opcodes: Opcodes<'a>,
    atoms: usize,
    inner: &'a InnerCompositions,
    costs: Vec<Costed>,
    kept: Option<(Cost, Trial)>,
}

impl<'a> Least<'a> {
    fn new(opcodes: Opcodes<'a>, atoms: usize, inner: &'a InnerCompositions) -> Self {
        Self {
            opcodes,
            atoms,
            inner,
            costs: Vec::new(),
            kept: None,
        }
    }

    /// Keeps a product that is strictly better.
    #[inline]
    fn take(&mut self, trial: Trial) {
        if self.costs.is_empty() {
            let atoms = 0..self.atoms;
            self.costs = atoms.map(|slot| self.opcodes.costed(slot)).collect();
        }
        let cost = self.cost(trial);
        if self.kept.is_none_or(|(least, _)| cost < least) {
            self.kept = Some((cost, trial));
        }
    }

    #[inline]
    fn cost(&self, trial: Trial) -> Cost {
        let costs = &self.costs;
        let product = match trial {
            Trial::Atoms(a, b) => under_gate(Gate::Mul, costs[a], costs[b]),
            Trial::AtomPair(a, pair) => {
                let ii = &self.inner.comps[pair];
                let right = under_gate(ii.gate, costs[ii.bi], costs[ii.ci]);
                under_gate(Gate::Mul, costs[a], right)
            }
        };
        product.cost
    }
}

/// A cost, and whether a variable is under it.
#[derive(Clone, Copy)]
struct Costed {
    cost: Cost,
    varies: bool,
}

impl Opcodes<'_> {
    /// Of an atom's formula, by a stack.
    fn costed(&self, slot: usize) -> Costed {
        let leaf = |varies| Costed {
            cost: [1, 0, 1],
            varies,
        };
        let ops = &self.ops[ATOM_TOKENS * slot..][..self.lengths[slot] as usize];
        let mut stack = [leaf(false); ATOM_TOKENS];
        let mut depth = 0;
        for &op in ops {
            match op {
                0 | 1 => {
                    stack[depth] = leaf(op == 1);
                    depth += 1;
                }
                7 | 8 => {
                    let [size, _, height] = &mut stack[depth - 1].cost;
                    (*size, *height) = (*size + 1, *height + 1);
                }
                _ => {
                    depth -= 1;
                    let gate = if op == 3 { Gate::Mul } else { Gate::And };
                    stack[depth - 1] = under_gate(gate, stack[depth - 1], stack[depth]);
                }
            }
        }
        stack[0]
    }
}

#[inline]
fn under_gate(gate: Gate, left: Costed, right: Costed) -> Costed {
    let nonlinear = gate == Gate::Mul && left.varies && right.varies;
    let (size, products) = if nonlinear { (3, 1) } else { (1, 0) };
    Costed {
        cost: [
            left.cost[0] + right.cost[0] + size,
            left.cost[1] + right.cost[1] + products,
            left.cost[2].max(right.cost[2]) + 1,
        ],
        varies: left.varies || right.varies,
    }
}

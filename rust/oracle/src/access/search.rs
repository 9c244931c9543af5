//! Candidates, and the parts of layers 1 and 2 that look for products.

use std::sync::Arc;

use super::super::{
    collect_mul_probe0_candidates, gate_expr, gate_matches, make_inner, mul_matches,
    probe0_matches, try_update, Atom, InnerCompositions, ProbeVals, TemplateResult,
};
use super::bank::{map_of, pool_of, pool_of_rows, AtomView};
use super::formulas::formula_of;
use super::index::{buckets_of, inner_of, inner_of_rows, IndexView, Inner};
use super::{Formula, Row};
use crate::core::evaluator::Evaluator;
use crate::core::expr::Expr;
use crate::simd::Gate;

/// A product that is tried: of two atoms, or of an atom and a pair, by their slots.
#[derive(Clone, Copy, Debug, PartialEq, Eq, Hash)]
pub enum Trial {
    Atoms(usize, usize),
    AtomPair(usize, usize),
}

/// `collect_mul_probe0_candidates`, over pairs with these first words: whether the filter was used, and its list.
pub fn candidates(first_words: &[u64], p: u64, t: u64, width: u32) -> (bool, Vec<usize>) {
    let mut list = Vec::new();
    let used = collect_mul_probe0_candidates(&buckets_of(first_words), p, t, width, &mut list);
    (used, list)
}

impl Inner {
    /// A table of which only rows and buckets are read.
    pub fn of_rows(rows: &[Row]) -> Self {
        Self(inner_of_rows(rows))
    }

    /// `collect_mul_probe0_candidates` over its buckets, into a list that may be used again: whether the filter was used.
    pub fn candidates(&self, p: u64, t: u64, width: u32, list: &mut Vec<usize>) -> bool {
        collect_mul_probe0_candidates(&self.0.mul_probe0_buckets, p, t, width, list)
    }
}

/// The MUL part of `layer2` for each target, with its check taken as passed and no baseline: the first hit, an atom and a pair.
pub fn product_loops(
    targets: &[Row],
    atom_rows: &[Row],
    pair_rows: &[Row],
    width: u32,
) -> Vec<Option<Trial>> {
    let pool = pool_of_rows(atom_rows);
    let inner = inner_of_rows(pair_rows);
    targets
        .iter()
        .map(|&target| first_hit(&ProbeVals(target), &pool, &inner, width))
        .collect()
}

/// The loop, line by line as in `layer2`; a hit is returned where `try_update` would take it.
fn first_hit(
    target: &ProbeVals,
    pool: &[Atom],
    inner_cache: &InnerCompositions,
    bw: u32,
) -> Option<Trial> {
    let inner = &inner_cache.comps;
    let mask = super::bitmask(bw);
    let mut mul_candidates: Vec<usize> = Vec::new();
    for (atom, ai) in pool.iter().enumerate() {
        let used_filter = collect_mul_probe0_candidates(
            &inner_cache.mul_probe0_buckets,
            ai.vals.0[0],
            target.0[0],
            bw,
            &mut mul_candidates,
        );
        if used_filter {
            for &ii_idx in &mul_candidates {
                let ii = &inner[ii_idx];
                if !mul_matches(&ai.vals, &ii.vals, target, mask, 1) {
                    continue;
                }
                return Some(Trial::AtomPair(atom, ii_idx));
            }
            continue;
        }
        for (pair, ii) in inner.iter().enumerate() {
            if !mul_matches(&ai.vals, &ii.vals, target, mask, 0) {
                continue;
            }
            return Some(Trial::AtomPair(atom, pair));
        }
    }
    None
}

/// The Mul turn of `layer1` for each target, with its check taken as passed and no baseline: the cheapest two atoms, first among equals.
pub fn two_atoms(targets: &[Row], atoms: &[AtomView], width: u32) -> Vec<Option<Trial>> {
    let pool = pool_of(atoms);
    let least = |target: &Row| {
        let mut best = Best::default();
        best.of_two_atoms(&ProbeVals(*target), &pool, width);
        best.chosen
    };
    targets.iter().map(least).collect()
}

/// For each target the Mul turn of `layer1` and after it the MUL part of `layer2`, both to their ends and with one best for both, their
/// checks taken as passed and no baseline: the cheapest product, first among equals. The Rust itself goes on to `layer2` only where
/// `layer1` has nothing, and ends it at its first hit.
pub fn least_products(
    targets: &[Row],
    atoms: &[AtomView],
    index: &IndexView,
    width: u32,
) -> Vec<Option<Trial>> {
    let pool = pool_of(atoms);
    let inner = inner_of(index);
    let least = |target: &Row| {
        let mut best = Best::default();
        best.of_two_atoms(&ProbeVals(*target), &pool, width);
        best.of_atom_and_pair(&ProbeVals(*target), &pool, &inner, width);
        best.chosen
    };
    targets.iter().map(least).collect()
}

/// The best so far, and which it is.
#[derive(Default)]
struct Best {
    best: Option<TemplateResult>,
    chosen: Option<Trial>,
}

impl Best {
    /// The Mul turn of `layer1`, line by line.
    fn of_two_atoms(&mut self, target: &ProbeVals, pool: &[Atom], bw: u32) {
        let mask = super::bitmask(bw);
        let g = Gate::Mul;
        let pn = pool.len();
        for ai in 0..pn {
            for bi in 0..pn {
                if !probe0_matches(pool[ai].vals.0[0], pool[bi].vals.0[0], target.0[0], g, mask) {
                    continue;
                }
                if !gate_matches(&pool[ai].vals, &pool[bi].vals, target, g, mask) {
                    continue;
                }
                let e = gate_expr(g, pool[ai].expr.clone_tree(), pool[bi].expr.clone_tree());
                self.update(e, Trial::Atoms(ai, bi), bw);
            }
        }
    }

    /// The MUL part of `layer2`, line by line but for its return at a hit.
    fn of_atom_and_pair(
        &mut self,
        target: &ProbeVals,
        pool: &[Atom],
        inner_cache: &InnerCompositions,
        bw: u32,
    ) {
        let inner = &inner_cache.comps;
        let mask = super::bitmask(bw);
        let mut mul_candidates: Vec<usize> = Vec::new();
        for (atom, ai) in pool.iter().enumerate() {
            let used_filter = collect_mul_probe0_candidates(
                &inner_cache.mul_probe0_buckets,
                ai.vals.0[0],
                target.0[0],
                bw,
                &mut mul_candidates,
            );
            if !used_filter {
                mul_candidates = (0..inner.len()).collect();
            }
            let start_probe = usize::from(used_filter);
            for &ii_idx in &mul_candidates {
                let ii = &inner[ii_idx];
                if !mul_matches(&ai.vals, &ii.vals, target, mask, start_probe) {
                    continue;
                }
                let e = gate_expr(Gate::Mul, ai.expr.clone_tree(), make_inner(pool, ii));
                self.update(e, Trial::AtomPair(atom, ii_idx), bw);
            }
        }
    }

    fn update(&mut self, e: Arc<Expr>, trial: Trial, bw: u32) {
        if try_update(&mut self.best, e, &Evaluator::default(), 1, bw, None) {
            self.chosen = Some(trial);
        }
    }
}

/// The whole original `layer1`, all gates, with no baseline.
pub fn layer1(target: Row, atoms: &[AtomView], width: u32) -> Option<Formula> {
    let pool = pool_of(atoms);
    let found = super::super::layer1(
        &ProbeVals(target),
        &pool,
        &map_of(&pool),
        super::bitmask(width),
        &Evaluator::default(),
        1,
        width,
        None,
    );
    found.map(|result| formula_of(&result.expr))
}

/// The whole original `layer2`, all gates, with no baseline.
pub fn layer2(target: Row, atoms: &[AtomView], index: &IndexView, width: u32) -> Option<Formula> {
    let found = super::super::layer2(
        &ProbeVals(target),
        &pool_of(atoms),
        &inner_of(index),
        super::bitmask(width),
        &Evaluator::default(),
        1,
        width,
        None,
    );
    found.map(|result| formula_of(&result.expr))
}

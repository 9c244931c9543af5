//! The search for sums and xors: `gate_residual` and the originals' two maps in one loop, in the specification's order and up to the
//! first hit. Layers 1 and 2 make the same lookups in loops of their own, and check what they find by samples.

use super::super::{gate_invertible, Atom, ProbeVals, ValMap, ALL_GATES};
use super::bank::{map_of, pool_of_rows, Pool};
use super::index::Inner;
use super::Row;

/// An outer gate, an atom, and what completes it to the target.
#[derive(Clone, Copy, Debug, PartialEq, Eq)]
pub struct Completion {
    /// 2 Xor or 3 Add.
    pub gate: usize,
    pub atom: usize,
    pub other: Part,
}

/// The other part of a completion, by its slot.
#[derive(Clone, Copy, Debug, PartialEq, Eq)]
pub enum Part {
    Atom(usize),
    Pair(usize),
}

/// The first completion for each target, over rows as they are; of equal rows the maps hold the first slot.
pub fn completions(
    targets: &[Row],
    atom_rows: &[Row],
    pair_rows: &[Row],
    width: u32,
) -> Vec<Option<Completion>> {
    let atoms = pool_of_rows(atom_rows);
    let vmap = map_of(&atoms);
    let index = map_of_rows(pair_rows);
    targets
        .iter()
        .map(|&target| first_completion(&ProbeVals(target), &atoms, &vmap, &index, width))
        .collect()
}

/// `completions` for one target, over a pool and its table.
pub fn completion_over(target: Row, pool: &Pool, inner: &Inner, width: u32) -> Option<Completion> {
    let target = &ProbeVals(target);
    first_completion(target, &pool.atoms, &pool.vmap, &inner.0.index, width)
}

fn first_completion(
    target: &ProbeVals,
    pool: &[Atom],
    vmap: &ValMap,
    index: &ValMap,
    bw: u32,
) -> Option<Completion> {
    let mask = super::bitmask(bw);
    for (gate, &g) in ALL_GATES.iter().enumerate() {
        if !gate_invertible(g) {
            continue;
        }
        for (atom, ai) in pool.iter().enumerate() {
            let res = target.residual(&ai.vals, g, mask);
            let in_bank = vmap.find(&res).map(Part::Atom);
            let Some(other) = in_bank.or_else(|| index.find(&res).map(Part::Pair)) else {
                continue;
            };
            return Some(Completion { gate, atom, other });
        }
    }
    None
}

/// The map that the originals keep beside a table with these rows.
fn map_of_rows(rows: &[Row]) -> ValMap {
    let mut index = ValMap::default();
    for (slot, &row) in rows.iter().enumerate() {
        index.insert(&ProbeVals(row), slot);
    }
    index
}

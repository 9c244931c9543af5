//! The index: the originals' table of inner compositions.

use std::collections::HashMap;

use super::super::{
    build_inner_compositions, InnerComp, InnerCompositions, ProbeVals, ValMap, ALL_GATES,
};
use super::bank::{map_of, pool_of_rows, Pool};
use super::Row;

/// The first pairs of an index, up to a limit.
#[derive(Clone, Debug, PartialEq, Eq)]
pub struct IndexView {
    /// Gate, b, c of each pair.
    pub pairs: Vec<[usize; 3]>,
    pub rows: Vec<Row>,
    /// The slots by the first words of their rows, ascending; within a bucket as the bucket has them.
    pub order: Vec<usize>,
    /// How many pairs the Rust lists, whose own limit is 262,144: more than `pairs` exactly if the limit cut some off.
    pub all: usize,
}

/// The originals' table of pairs as it is, for callers that time the originals.
pub struct Inner(pub(super) InnerCompositions);

impl Inner {
    /// `build_inner_compositions`.
    pub fn build(pool: &Pool, width: u32) -> Self {
        let mask = super::bitmask(width);
        Self(build_inner_compositions(&pool.atoms, &pool.vmap, mask))
    }

    /// Its first `limit` pairs.
    pub fn view(&self, limit: usize) -> IndexView {
        let comps = &self.0.comps;
        let listed = &comps[..limit.min(comps.len())];
        IndexView {
            pairs: listed
                .iter()
                .map(|pair| [pair.gate as usize, pair.bi, pair.ci])
                .collect(),
            rows: listed.iter().map(|pair| pair.vals.0).collect(),
            order: order(&self.0.mul_probe0_buckets, listed.len()),
            all: comps.len(),
        }
    }
}

/// `build_inner_compositions` over atom rows as they are, and its first `limit` pairs.
pub fn index(atom_rows: &[Row], width: u32, limit: usize) -> IndexView {
    let atoms = pool_of_rows(atom_rows);
    let vmap = map_of(&atoms);
    Inner::build(&Pool { atoms, vmap }, width).view(limit)
}

/// The buckets by ascending first word, one after the other, slots from `count` upward left out.
fn order(buckets: &HashMap<u64, Vec<usize>>, count: usize) -> Vec<usize> {
    let mut first_words: Vec<u64> = buckets.keys().copied().collect();
    first_words.sort_unstable();
    first_words
        .iter()
        .flat_map(|word| &buckets[word])
        .copied()
        .filter(|&slot| slot < count)
        .collect()
}

/// The buckets that the originals keep for pairs with these first words.
pub(super) fn buckets_of(first_words: &[u64]) -> HashMap<u64, Vec<usize>> {
    let mut buckets: HashMap<u64, Vec<usize>> = HashMap::new();
    for (slot, &word) in first_words.iter().enumerate() {
        buckets.entry(word).or_default().push(slot);
    }
    buckets
}

/// A table of which only rows and buckets are read.
pub(super) fn inner_of_rows(rows: &[Row]) -> InnerCompositions {
    let comp = |row: &Row| InnerComp {
        gate: ALL_GATES[0],
        bi: 0,
        ci: 0,
        vals: ProbeVals(*row),
    };
    let first_words: Vec<u64> = rows.iter().map(|row| row[0]).collect();
    InnerCompositions {
        comps: rows.iter().map(comp).collect(),
        index: ValMap::default(),
        mul_probe0_buckets: buckets_of(&first_words),
    }
}

/// The originals' table that an `IndexView` shows.
pub(super) fn inner_of(view: &IndexView) -> InnerCompositions {
    let mut index = ValMap::default();
    let mut comps = Vec::new();
    for (slot, (&[gate, bi, ci], &row)) in view.pairs.iter().zip(&view.rows).enumerate() {
        let vals = ProbeVals(row);
        index.insert(&vals, slot);
        comps.push(InnerComp {
            gate: ALL_GATES[gate],
            bi,
            ci,
            vals,
        });
    }
    let first_words: Vec<u64> = view.rows.iter().map(|row| row[0]).collect();
    InnerCompositions {
        comps,
        index,
        mul_probe0_buckets: buckets_of(&first_words),
    }
}

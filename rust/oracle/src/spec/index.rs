//! The index by trying every gate on every two atoms.

use std::collections::HashSet;

use crate::access::{IndexView, Row};

use super::bank::ATOMS_MAX;
use super::formulas::{AND, GATE_OPS, OR};
use super::gates::gate_row;
use super::product::order_list;
use super::refusals::{NONE, REFUSED_COUNT, REFUSED_LENGTH, REFUSED_LIMIT, REFUSED_WIDTH};

/// The largest limit.
pub const PAIRS_MAX: u64 = 262_144;

#[derive(Default)]
pub struct Index {
    /// Gate, b, c of each pair.
    pub pairs: Vec<[usize; 3]>,
    pub rows: Vec<Row>,
    pub cut: bool,
}

/// The first pairs, up to a limit, whose rows are new; cut at the next one.
pub fn index(atoms: &[Row], width: u32, limit: usize) -> Index {
    let mut held: HashSet<Row> = atoms.iter().copied().collect();
    let mut index = Index::default();
    for [gate, b, c] in trials(atoms.len()) {
        let row = gate_row(&atoms[b], &atoms[c], gate, width);
        if !held.insert(row) {
            continue;
        }
        if index.pairs.len() == limit {
            index.cut = true;
            break;
        }
        index.pairs.push([gate, b, c]);
        index.rows.push(row);
    }
    index
}

/// The first pairs, up to a limit, with their order list, as the originals' table is shown.
pub fn view(atoms: &[Row], width: u32, limit: usize) -> IndexView {
    let mut whole = index(atoms, width, PAIRS_MAX as usize);
    let all = whole.pairs.len();
    whole.pairs.truncate(limit);
    whole.rows.truncate(limit);
    let first_words: Vec<u64> = whole.rows.iter().map(|row| row[0]).collect();
    IndexView {
        pairs: whole.pairs,
        rows: whole.rows,
        order: order_list(&first_words),
        all,
    }
}

/// Every gate with b and c from b upward; And and Or not with b twice.
fn trials(count: usize) -> impl Iterator<Item = [usize; 3]> {
    let all = (0..GATE_OPS.len())
        .flat_map(move |gate| (0..count).map(move |b| (gate, b)))
        .flat_map(move |(gate, b)| (b..count).map(move |c| [gate, b, c]));
    all.filter(|&[gate, b, c]| b != c || !matches!(GATE_OPS[gate], AND | OR))
}

/// What is handed to the index build, good or not; of the lent arrays their lengths.
#[derive(Clone)]
pub struct Handed {
    pub width: u64,
    pub count: u64,
    pub rows: u64,
    pub limit: u64,
    pub pairs: u64,
    pub pair_rows: u64,
    pub order: u64,
    pub work: u64,
}

impl Handed {
    /// The table for the index build: 2, 3, 4, 7, the least that applies.
    pub fn refusal(&self) -> u64 {
        if !(1..=64).contains(&self.width) {
            REFUSED_WIDTH
        } else if self.limit > PAIRS_MAX {
            REFUSED_LIMIT
        } else if self.is_array_short() {
            REFUSED_LENGTH
        } else if self.count > ATOMS_MAX as u64 {
            REFUSED_COUNT
        } else {
            NONE
        }
    }

    fn is_array_short(&self) -> bool {
        let [count, limit] = [self.count, self.limit].map(u128::from);
        let needed = [
            (self.rows, 16 * count),
            (self.pairs, 3 * limit),
            (self.pair_rows, 16 * limit),
            (self.order, limit),
            (self.work, 4 * (limit + ATOMS_MAX as u128)),
        ];
        needed
            .iter()
            .any(|&(length, needed)| u128::from(length) < needed)
    }
}

#[cfg(test)]
mod tests {
    use super::{index, view};
    use crate::access::{self, Row};
    use crate::inputs::Inputs;
    use crate::made::rows::few_rows;
    use crate::spec::gates::are_reduced;

    fn all(words: &[u64]) -> Vec<Row> {
        words.iter().map(|&word| [word; 16]).collect()
    }

    /// Over reduced rows the view is the originals', whatever the limit.
    #[test]
    fn reduced_rows() {
        let inputs = &mut Inputs::from_seed(6);
        for turn in 0..200 {
            let width = 1 + turn % 5;
            let rows = few_rows(inputs, width);
            let limit = inputs.one_of(&[0, 1, 7, 1000]);
            assert_eq!(
                view(&rows, width, limit),
                access::index(&rows, width, limit)
            );
        }
    }

    /// Over any rows those of the pairs are reduced. And and Or pass over b = c: a single atom has neither, though 6 And 6 is 2 at width 2.
    #[test]
    fn raw_rows() {
        let inputs = &mut Inputs::from_seed(7);
        for turn in 0..200 {
            let width = 1 + turn % 5;
            let rows = few_rows(inputs, width + 2);
            assert!(are_reduced(&index(&rows, width, 1000).rows, width));
        }
        assert_eq!(index(&all(&[6]), 2, 9).pairs, [[2, 0, 0]]);
        let two = index(&all(&[1, 2]), 1, 9);
        assert_eq!((two.pairs, two.rows), (vec![[0, 0, 1]], all(&[0])));
    }
}

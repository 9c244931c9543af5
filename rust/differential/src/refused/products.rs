//! The product search.

use std::fmt;

use oracle::access::AtomView;
use oracle::inputs::Inputs;
use oracle::made::lent::{any_atom, any_index};
use oracle::spec::bank::ATOMS_MAX;
use oracle::spec::index::PAIRS_MAX;
use oracle::spec::lent as spec;

use super::searches::{damage, with_target};
use super::{claimed, cut, damages, number, padded, row_words, widths};
use crate::buffers::{AtomBuffers, PairBuffers, ATOM_TOKENS};
use crate::products::ask;
use crate::report::{Kind, Report};

const MILLION: usize = 1_000_000;
/// Entries of each array that are told.
const TOLD: usize = 12;

/// A bank and an index as they are lent.
struct Lent {
    count: usize,
    atoms: AtomBuffers,
    pair_count: usize,
    pairs: PairBuffers,
}

impl Lent {
    /// A few atoms and pairs, now and then more than there can be, damaged here and there.
    fn new(inputs: &mut Inputs, width: u32) -> Self {
        let (count, mut atoms) = some_atoms(inputs, width);
        let (pair_count, mut pairs) = some_pairs(inputs, width, count);
        if damages(inputs) || count == MILLION && inputs.below(2) == 0 {
            damage_formula(inputs, &mut atoms, count);
        }
        if damages(inputs) {
            damage_pair(inputs, &mut pairs, pair_count, count);
        }
        if damages(inputs) {
            damage(inputs, &mut pairs.order);
        }
        if inputs.below(3) == 0 {
            cut_some(inputs, &mut atoms, &mut pairs);
        }
        Lent {
            count: claimed_or_fewer(inputs, count),
            atoms,
            pair_count: claimed(inputs, pair_count),
            pairs,
        }
    }

    fn handed(&self, width: u32, target: &[u64]) -> spec::ProductSearch<'_> {
        let first_words = self.pairs.rows.chunks_exact(16).map(|row| row[0]);
        spec::ProductSearch {
            width: width.into(),
            count: self.count as u64,
            formulas: spec::Formulas {
                lengths: &self.atoms.lengths,
                ops: &self.atoms.ops,
                operands: &self.atoms.operands,
            },
            atoms: self.atoms.rows.len() as u64,
            pairs: spec::Pairs {
                count: self.pair_count as u64,
                rows: self.pairs.rows.len() as u64,
                first_words: first_words.collect(),
                order: self.pairs.order.iter().copied().map(u64::from).collect(),
            },
            words: &self.pairs.words,
            target: padded(target),
        }
    }
}

/// Counts, lengths, and the first entries of each array but the rows.
impl fmt::Debug for Lent {
    fn fmt(&self, f: &mut fmt::Formatter<'_>) -> fmt::Result {
        fn first<T>(array: &[T]) -> (usize, &[T]) {
            (array.len(), &array[..array.len().min(TOLD)])
        }
        let Lent { atoms, pairs, .. } = self;
        f.debug_struct("Lent")
            .field("count", &self.count)
            .field("lengths", &first(&atoms.lengths))
            .field("ops", &first(&atoms.ops))
            .field("operands", &first(&atoms.operands))
            .field("rows", &atoms.rows.len())
            .field("pair_count", &self.pair_count)
            .field("words", &first(&pairs.words))
            .field("pair_rows", &pairs.rows.len())
            .field("order", &first(&pairs.order))
            .finish()
    }
}

pub fn product(inputs: &mut Inputs, report: &mut Report) {
    let (good, width) = widths(inputs);
    let lent = Lent::new(inputs, good);
    let target = row_words(inputs, good);
    let (atoms, pairs) = (
        lent.atoms.lend(lent.count),
        lent.pairs.lend(lent.pair_count),
    );
    let refused = number(ask(width, atoms, pairs, &target));
    let expected = with_target(&target, width, lent.handed(width, &target).refusal());
    report.reach(
        "a million atoms claimed, refused with 6",
        lent.count == MILLION && expected == 6,
    );
    report.reach(
        "a million atoms claimed, refused with 7",
        lent.count == MILLION && expected == 7,
    );
    let input = (width, &lent, target);
    report.refusal(Kind::RefusedProduct, &input, (refused, true), expected);
}

/// How many, and their arrays.
fn some_atoms(inputs: &mut Inputs, width: u32) -> (usize, AtomBuffers) {
    let any = inputs.below(6) as usize;
    let count = match inputs.below(128) {
        0 => return (MILLION, constants(MILLION)),
        1..8 => ATOMS_MAX,
        8..24 => ATOMS_MAX + 1,
        _ => any,
    };
    let atom = |_| {
        let row = inputs.row(width);
        any_atom(inputs, row, width)
    };
    let atoms: Vec<AtomView> = (0..count).map(atom).collect();
    (count, AtomBuffers::new(inputs, &atoms))
}

/// Atoms that are all the constant 0.
fn constants(count: usize) -> AtomBuffers {
    AtomBuffers {
        lengths: vec![1; count],
        ops: vec![0; ATOM_TOKENS * count],
        operands: vec![0; ATOM_TOKENS * count],
        rows: vec![0; 16 * count],
    }
}

/// How many, and their arrays; seldom more than there can be, all And of atoms 0 and 0.
fn some_pairs(inputs: &mut Inputs, width: u32, atoms: usize) -> (usize, PairBuffers) {
    if inputs.below(64) == 0 {
        let count = PAIRS_MAX as usize + inputs.below(2) as usize;
        let pairs = PairBuffers {
            words: vec![0; 3 * count],
            rows: vec![0; 16 * count],
            order: (0..count as u32).collect(),
        };
        return (count, pairs);
    }
    let rows = (0..inputs.below(7)).map(|_| inputs.row(width)).collect();
    let index = any_index(inputs, atoms, rows);
    (index.all, PairBuffers::new(inputs, &index))
}

/// Changes one atom's formula, mostly so that it is none any more.
fn damage_formula(inputs: &mut Inputs, atoms: &mut AtomBuffers, count: usize) {
    if count == 0 {
        return;
    }
    let last = count as u64 - 1;
    let any = inputs.below(count as u64);
    let atom = inputs.one_of(&[0, last, any]) as usize;
    let token = ATOM_TOKENS * atom + inputs.below(u64::from(atoms.lengths[atom])) as usize;
    match inputs.below(8) {
        0 => atoms.lengths[atom] = inputs.one_of(&[0, 7, 64, u32::MAX]),
        // fewer tokens leave a part, more of them garbage
        1 => atoms.lengths[atom] = 1 + inputs.below(6) as u32,
        2 => atoms.ops[token] = inputs.one_of(&[9, 10, 255]),
        3 => atoms.ops[token] = inputs.below(9) as u8,
        4 => (atoms.ops[token], atoms.operands[token]) = (1, inputs.one_of(&[5, 6, 7, u64::MAX])),
        5 => atoms.operands[token] = inputs.one_of(&[1, 6, 1 << 32]),
        // operands missing, two values
        6 => atoms.ops[token] = inputs.one_of(&[2, 3, 7, 8]),
        _ => (atoms.ops[token], atoms.operands[token]) = (0, 0),
    }
}

/// Changes one pair's gate, b or c, to the last that are good, the first that aren't, or far beyond.
fn damage_pair(inputs: &mut Inputs, pairs: &mut PairBuffers, pair_count: usize, count: usize) {
    if pair_count == 0 {
        return;
    }
    let last = pair_count as u64 - 1;
    let any = inputs.below(pair_count as u64);
    let pair = inputs.one_of(&[0, last, any]) as usize;
    let count = count as u32;
    let (place, word) = match inputs.below(3) {
        0 => (0, inputs.one_of(&[4, 5, 6, u32::MAX])),
        place => (
            place,
            inputs.one_of(&[count.wrapping_sub(1), count, count + 1, u32::MAX]),
        ),
    };
    pairs.words[3 * pair + place as usize] = word;
}

/// Cuts each array, or not.
fn cut_some(inputs: &mut Inputs, atoms: &mut AtomBuffers, pairs: &mut PairBuffers) {
    cut(inputs, &mut atoms.lengths);
    cut(inputs, &mut atoms.ops);
    cut(inputs, &mut atoms.operands);
    cut(inputs, &mut atoms.rows);
    cut(inputs, &mut pairs.words);
    cut(inputs, &mut pairs.rows);
    cut(inputs, &mut pairs.order);
}

/// A count that is claimed: as `claimed`, now and then one less, so that a pair may have an atom at the count.
fn claimed_or_fewer(inputs: &mut Inputs, count: usize) -> usize {
    if damages(inputs) {
        return count.saturating_sub(1);
    }
    claimed(inputs, count)
}

//! Banks and indexes that no build made: an atom's formula has nothing to do with its row, nor a pair's words with its.

use crate::access::{AtomView, IndexView, Row};
use crate::inputs::Inputs;
use crate::made::formulas::{Lean, Maker};
use crate::spec::bank::ATOM_TOKENS;
use crate::spec::formulas::{GATE_OPS, VARS_MAX};
use crate::spec::product::order_list;

/// An atom with this row and any formula that an atom may have. Its recorded cost is any.
pub fn any_atom(inputs: &mut Inputs, row: Row, width: u32) -> AtomView {
    let cost = [(); 3].map(|()| inputs.below(16) as u32);
    let tokens = 1 + inputs.below(ATOM_TOKENS as u64) as usize;
    let mut maker = Maker {
        inputs,
        num_vars: VARS_MAX,
        width,
    };
    let formula = maker.formula(tokens, Lean::Any);
    AtomView { formula, cost, row }
}

/// Pairs with these rows, each of any gate and of any two of so many atoms, in either order; without atoms there are none.
pub fn any_index(inputs: &mut Inputs, atoms: usize, mut rows: Vec<Row>) -> IndexView {
    if atoms == 0 {
        rows.clear();
    }
    let mut slot = |bound: usize| inputs.below(bound as u64) as usize;
    let mut pair = |_: &Row| [slot(GATE_OPS.len()), slot(atoms), slot(atoms)];
    let pairs: Vec<[usize; 3]> = rows.iter().map(&mut pair).collect();
    let first_words: Vec<u64> = rows.iter().map(|row| row[0]).collect();
    IndexView {
        all: pairs.len(),
        order: order_list(&first_words),
        pairs,
        rows,
    }
}

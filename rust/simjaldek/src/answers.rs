//! What the searches answer, in the atoms and pairs that they searched.

use crate::formula::operation;
use crate::{compute_cost, Atom, Completion, Cost, FormulaBuf, Gate, Pair, Product};

/// The most variables, which the atoms of every bank are formulas over.
const VARIABLES_MAX: u32 = 6;

/// What the product search answers, in the atoms and pairs that it searched: the cheapest product that has the row, and the first in the
/// order of the search among equals. A pair that isn't listed is not among them: a cut index lacks some, and of pairs with one row an index
/// lists the first, and none whose row an atom has. Answers are equal within one index; across copies compare
/// [`slots`](ProductAnswer::slots) or [`postfix`](ProductAnswer::postfix).
#[derive(Clone, Copy, Debug, PartialEq, Eq)]
pub enum ProductAnswer<'i> {
    /// Two atoms whose product has the row.
    Atoms(Atom<'i>, Atom<'i>),
    /// An atom and a listed pair whose product has the row.
    AtomPair(Atom<'i>, Pair<'i>),
    /// Neither a product of two atoms nor one of an atom and a listed pair has the row.
    Nothing {
        /// Whether the index is whole. Then no a × b and no a × (b g c) with atoms a, b, c of this bank and a gate g has the row; of
        /// other forms it says nothing. With a cut index a pair that isn't listed may do. It speaks of this bank's atoms and of this row:
        /// with a bank that was built for another target, or a row of other points, it is no verdict on a formula.
        certain: bool,
    },
}

impl ProductAnswer<'_> {
    /// The product written out in postfix; none for nothing.
    pub fn postfix(self) -> Option<FormulaBuf> {
        match self {
            ProductAnswer::Atoms(a, b) => Some(of_atoms(Gate::Mul, a, b)),
            ProductAnswer::AtomPair(a, pair) => Some(of_pair(Gate::Mul, a, pair)),
            ProductAnswer::Nothing { .. } => None,
        }
    }

    /// The cost of the product written out, by which it is the cheapest; none for nothing.
    pub fn cost(self) -> Option<Cost> {
        self.postfix_and_cost().map(|(_, cost)| cost)
    }

    /// The product written out in postfix, ready to load once it was compared beyond the points, and its cost; none for nothing.
    pub fn postfix_and_cost(self) -> Option<(FormulaBuf, Cost)> {
        self.postfix().map(with_cost)
    }

    /// The answer by slots, as [`lent::product_search`](crate::lent::product_search) has it.
    pub fn slots(self) -> Product {
        match self {
            ProductAnswer::Atoms(a, b) => Product::Atoms(a.slot(), b.slot()),
            ProductAnswer::AtomPair(a, pair) => Product::AtomPair(a.slot(), pair.slot()),
            ProductAnswer::Nothing { .. } => Product::Nothing,
        }
    }
}

/// What the residual search answers, in the atoms and pairs that it searched: the outer gate, Xor or Add, the atom that is completed,
/// and what completes it; the first in the order of the search, not the cheapest. Answers are equal within one index; across copies
/// compare [`slots`](CompletionAnswer::slots) or [`postfix`](CompletionAnswer::postfix).
#[derive(Clone, Copy, Debug, PartialEq, Eq)]
pub enum CompletionAnswer<'i> {
    /// Two atoms whose xor or sum has the row.
    Atoms(Gate, Atom<'i>, Atom<'i>),
    /// An atom and a listed pair whose xor or sum has the row.
    AtomPair(Gate, Atom<'i>, Pair<'i>),
    /// Neither an xor or sum of two atoms nor one of an atom and a listed pair has the row.
    Nothing {
        /// Whether the index is whole. Then no a ^ b, a + b, a ^ (b g c) and a + (b g c) with atoms a, b, c of this bank and a gate g has
        /// the row; of other forms, products among them, it says nothing. With a cut index a pair that isn't listed may do. It speaks of
        /// this bank's atoms and of this row: with a bank that was built for another target, or a row of other points, it is no verdict
        /// on a formula.
        certain: bool,
    },
}

impl CompletionAnswer<'_> {
    /// The xor or sum written out in postfix, the outer gate last; none for nothing.
    pub fn postfix(self) -> Option<FormulaBuf> {
        match self {
            CompletionAnswer::Atoms(gate, a, b) => Some(of_atoms(gate, a, b)),
            CompletionAnswer::AtomPair(gate, a, pair) => Some(of_pair(gate, a, pair)),
            CompletionAnswer::Nothing { .. } => None,
        }
    }

    /// The cost of the xor or sum written out; none for nothing.
    pub fn cost(self) -> Option<Cost> {
        self.postfix_and_cost().map(|(_, cost)| cost)
    }

    /// The xor or sum written out in postfix, and its cost; none for nothing.
    pub fn postfix_and_cost(self) -> Option<(FormulaBuf, Cost)> {
        self.postfix().map(with_cost)
    }

    /// The answer by slots, as [`lent::residual_search`](crate::lent::residual_search) has it.
    pub fn slots(self) -> Completion {
        match self {
            CompletionAnswer::Atoms(gate, a, b) => Completion::Atoms(gate, a.slot(), b.slot()),
            CompletionAnswer::AtomPair(gate, a, pair) => {
                Completion::AtomPair(gate, a.slot(), pair.slot())
            }
            CompletionAnswer::Nothing { .. } => Completion::Nothing,
        }
    }
}

/// Two atoms under a gate.
fn of_atoms(gate: Gate, a: Atom<'_>, b: Atom<'_>) -> FormulaBuf {
    operation(a.formula(), b.formula(), gate.token())
}

/// An atom and a pair under a gate.
fn of_pair(gate: Gate, a: Atom<'_>, pair: Pair<'_>) -> FormulaBuf {
    operation(a.formula(), pair.postfix().as_formula(), gate.token())
}

/// What is written out, with its cost.
fn with_cost(formula: FormulaBuf) -> (FormulaBuf, Cost) {
    let cost = compute_cost(VARIABLES_MAX, formula.as_formula());
    (formula, cost.expect("atoms under gates are a formula"))
}

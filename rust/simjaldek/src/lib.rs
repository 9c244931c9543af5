//! Safe calls into Simjaldek, which looks for a product, an xor or a sum of small formulas that has the row of a long one. **What an
//! answer means:** a row says what a formula does at sixteen points, and no more. So what is found has the formula's values at the
//! sixteen points, and may differ from it elsewhere: at width 16 with three variables `v0 v1 & v2 & c2 &` is 0 at all of them, the
//! product search rightly answers `c0 c0 *`, and with all bits set in each variable the formula is 2. Comparing the two beyond the
//! points, before one takes the other's place, is for the layer above, as cobra does with samples. A product that is found is the
//! cheapest of those that fit, of two atoms and of an atom and a listed pair, by the cost of the whole formula written out, and among
//! equals the first in the order of the search; an index lists one pair for a row, the first, and none whose row an atom has, so that a
//! shorter one may exist. An xor or a sum is the first that fits, not the cheapest. "Nothing" is about the forms that were searched,
//! with a, b, c atoms of this bank and g a gate: a × b and a × (b g c) by the product search, a ^ b, a + b, a ^ (b g c) and a + (b g c)
//! by the residual search. It is certain only where the index is whole: with six variables and widths from 6 up most formulas' own rows
//! make more pairs than 262,144, and the index is cut there.
//!
//! ```
//! use simjaldek::{Bank, Index, Points, PAIRS_MAX};
//!
//! let points = Points::standard(3, 16)?;
//! let read = points.read("v0 v1 & v2 & c2 &")?;
//! assert!(read.cut.is_empty(), "no constant is cut off by the width");
//! let mask = read.formula;
//! assert_eq!(points.row(mask.as_formula())?, [0; 16]);
//! let bank = Bank::build_for(&points, mask.as_formula())?;
//! let index = Index::build(&bank, PAIRS_MAX)?;
//! let product = index.product_for(mask.as_formula())?.postfix().expect("zero is a product");
//! assert_eq!(product.to_string(), "c0 c0 *");
//! let elsewhere = [0xFFFF; 3];
//! assert_eq!(points.evaluate(mask.as_formula(), &elsewhere)?, 2);
//! assert_eq!(points.evaluate(product.as_formula(), &elsewhere)?, 0);
//! # Ok::<(), Box<dyn std::error::Error>>(())
//! ```
//!
//! There are a bank of small formulas, an index of rows made from two of them by a gate, and two searches over both: the product search,
//! and the residual search, which completes a formula of the bank to the row, under Xor, then under Add. Each call goes to a function of
//! the static library `libsimjaldek.a` that is proved, for all inputs, to give the answer or the [`Refusal`] that the specification has;
//! docs/CALLS.md of the repository names the promise of each. What is not proved is this crate: that its declarations fit the library,
//! and what it does with an answer.
//!
//! [`Points`] are told the variable count and the width, once; a [`Bank`] keeps its points, an [`Index`] its bank, an [`Atom`] its
//! bank and a [`Pair`] its index, so that none can be taken for another's. [`lent`] has the calls over a caller's own arrays, where
//! each is told again.
//!
//! ```
//! use simjaldek::{Bank, Cost, Index, Points, ProductAnswer, PAIRS_MAX};
//!
//! let points = Points::standard(2, 32)?;
//! let long = points.read("v0 v0 * v0 v1 * +")?.formula;
//! let bank = Bank::build_for(&points, long.as_formula())?;
//! let index = Index::build(&bank, PAIRS_MAX)?;
//! let answer = index.product_for(long.as_formula())?;
//! let ProductAnswer::Atoms(a, b) = answer else {
//!     panic!("v0 * (v0 + v1) is a product of two atoms");
//! };
//! assert_eq!([a, b].map(|atom| atom.to_string()), ["v0", "v0 v1 +"]);
//! let (product, cost) = answer.postfix_and_cost().expect("a product");
//! assert_eq!(product.to_string(), "v0 v0 v1 + *");
//! assert_eq!(cost, Cost { size: 7, products: 1, depth: 3 });
//! # Ok::<(), Box<dyn std::error::Error>>(())
//! ```
//!
//! A sum, where no product is found:
//!
//! ```
//! use simjaldek::{Bank, CompletionAnswer, Index, Points, ProductAnswer, PAIRS_MAX};
//!
//! let points = Points::standard(2, 32)?;
//! let long = points.read("v0 v0 * v0 v1 * + v0 v1 * + v1 v1 * + v0 v1 ^ +")?.formula;
//! let bank = Bank::build_for(&points, long.as_formula())?;
//! let index = Index::build(&bank, PAIRS_MAX)?;
//! assert_eq!(index.product_for(long.as_formula())?, ProductAnswer::Nothing { certain: true });
//! let CompletionAnswer::AtomPair(gate, a, pair) = index.residual_for(long.as_formula())? else {
//!     panic!("(v0 ^ v1) + (v0 + v1) * (v0 + v1) is an atom completed by a pair");
//! };
//! assert_eq!(format!("{gate:?} of {a} and {pair}"), "Add of v0 v1 ^ and v0 v1 + v0 v1 + *");
//! # Ok::<(), Box<dyn std::error::Error>>(())
//! ```
//!
//! A [`Rule`] watches a run of telemetry records: it fires where its formula was nonzero in at least M of the last W, and is fed the
//! records in slices, as they come.
//!
//! ```
//! use simjaldek::{FormulaBuf, Rule, Window};
//!
//! // v0 is the height, v1 the height before; the sign of their difference at width 16
//! let falling: FormulaBuf = "v0 v1 - + c32768 &".parse()?;
//! let mut rule = Rule::new(2, 16, falling.as_formula(), Window { least: 2, records: 3 })?;
//! assert_eq!(rule.feed(&[9120, 9080, 9110, 9120, 9150, 9110])?, [false, false, false]);
//! assert_eq!(rule.feed(&[9140, 9150, 9090, 9140])?, [true, true]);
//! # Ok::<(), Box<dyn std::error::Error>>(())
//! ```
//!
//! A [`Log`] closes each sounding once: at the first record where one of up to eight rules fires, by the least rank that fires there.
//!
//! ```
//! use simjaldek::{Close, FormulaBuf, Log, RankedRule, Window};
//!
//! // burst before signal loss: v0 is the fall since the record before, v1 how many frames were lost
//! let [fell, lost]: [FormulaBuf; 2] = ["v0".parse()?, "v1 c12 &".parse()?];
//! let window = Window { least: 2, records: 3 };
//! let rules = [
//!     RankedRule { rank: 1, formula: fell.as_formula(), window },
//!     RankedRule { rank: 2, formula: lost.as_formula(), window },
//! ];
//! let mut log = Log::new(2, 16, &rules)?;
//! log.open();
//! assert_eq!(log.records(&[0, 1, 40, 9])?, None);
//! assert_eq!(log.records(&[95, 8, 98, 15])?, Some(Close { number: 3, rank: 1 }));
//! assert_eq!((log.number(), log.later()), (4, 1));
//! # Ok::<(), Box<dyn std::error::Error>>(())
//! ```
//!
//! And a [`Load`] for tests: formulas drawn from a seed, the same ones wherever they are drawn.

#![warn(missing_docs)]
#![deny(unsafe_code)]

mod answers;
mod bank;
mod fault;
mod ffi;
mod formula;
mod index;
pub mod lent;
mod load;
mod log;
mod parse;
mod points;
mod refusal;
mod rule;
mod types;

pub use answers::{CompletionAnswer, ProductAnswer};
pub use bank::{Atom, Bank};
pub use fault::{Fault, FormulaError};
pub use formula::{CutConstant, Formula, FormulaBuf, Token};
pub use index::{Index, Pair};
pub use lent::{
    bitmask, mod_add, mod_inverse_odd, mod_mul, mod_neg, mod_not, mod_sub, reduce, splitmix64,
    wrapping_mul,
};
pub use load::Load;
pub use log::{Log, RankedRule};
pub use parse::{ParseFormulaError, ParseTokenError};
pub use points::{Points, ReadError, Reading};
pub use refusal::Refusal;
pub use rule::Rule;
pub use types::{
    AtomSlot, Close, Completion, Cost, Gate, LogState, PairSlot, Point, Product, Row, Window,
    ATOMS_MAX, ATOM_TOKENS, FORMULA_TOKENS_MAX, LOG_RULES_MAX, PAIRS_MAX, POINT_WORDS, ROW_WORDS,
    WINDOW_MAX,
};

/// Whether the tokens are a formula over so many variables: what refusal 6 tests. [`Formula::fault`] says what they lack. Any count of
/// variables is taken here, also 0 and those above 6, which the other calls refuse.
pub fn is_formula(num_vars: u32, formula: Formula<'_>) -> bool {
    lent::is_formula(num_vars, formula.lend())
}

/// The value of a formula modulo 2^w, with a word for each variable; words past the count are ignored. Refuses 1, 2, 6, and 4 for fewer
/// words than variables.
pub fn evaluate(
    num_vars: u32,
    width: u32,
    formula: Formula<'_>,
    words: &[u64],
) -> Result<u64, FormulaError> {
    lent::evaluate(num_vars, width, formula.lend(), words)
        .map_err(|refusal| FormulaError::new(refusal, num_vars, formula))
}

/// The cost of a formula. Refuses 1, 6.
pub fn compute_cost(num_vars: u32, formula: Formula<'_>) -> Result<Cost, FormulaError> {
    lent::compute_cost(num_vars, formula.lend())
        .map_err(|refusal| FormulaError::new(refusal, num_vars, formula))
}

/// A number of a row's words. Equal rows have equal fingerprints; equal fingerprints don't prove equal rows.
pub fn fingerprint(row: &Row) -> u64 {
    lent::fingerprint(row).expect("sixteen words are never refused")
}

/// The gate in each of sixteen places, modulo 2^w; the words of `a` and `b` may be any. Refuses 2.
pub fn gate_apply(a: &Row, b: &Row, gate: Gate, width: u32) -> Result<Row, Refusal> {
    lent::gate_apply(a, b, gate.number(), width)
}

/// What completes `a` to the target under Xor and Add, modulo 2^w; zeros under the other gates. The words may be any: the gate of `a` and
/// this row is the target modulo 2^w. Refuses 2.
pub fn gate_residual(target: &Row, a: &Row, gate: Gate, width: u32) -> Result<Row, Refusal> {
    lent::gate_residual(target, a, gate.number(), width)
}

/// Whether the gate, modulo 2^w, gives the target in all sixteen places. The target's words are compared as they are: one that isn't below
/// 2^w never matches. Refuses 2.
pub fn gate_matches(
    a: &Row,
    b: &Row,
    target: &Row,
    gate: Gate,
    width: u32,
) -> Result<bool, Refusal> {
    lent::gate_matches(a, b, target, gate.number(), width)
}

/// What the listing program writes of a text: atoms, costs, formulas and pairs, or its refusal.
pub fn listing(text: &[u8]) -> Vec<u8> {
    let mut out = vec![0; lent::TEXT_MAX];
    let length = lent::write_listing(text, &mut out).expect("the buffer is long enough");
    out.truncate(length);
    out
}

//! The words that the calls speak in: rows, points, slots, gates, costs, products, completions, windows, logs.

use crate::Token;
use std::fmt;

/// The most atoms a bank has.
pub const ATOMS_MAX: usize = 479;
/// The most pairs an index has.
pub const PAIRS_MAX: usize = 262_144;
/// The words of a row.
pub const ROW_WORDS: usize = 16;
/// The words of a point.
pub const POINT_WORDS: usize = 6;
/// The token places of an atom.
pub const ATOM_TOKENS: usize = 6;
/// The most tokens of a formula.
pub const FORMULA_TOKENS_MAX: usize = 64;
/// The most records of a rule's window.
pub const WINDOW_MAX: u32 = 64;
/// The most rules of a closing log.
pub const LOG_RULES_MAX: usize = 8;

/// Sixteen words: a formula's values at the sixteen points.
pub type Row = [u64; ROW_WORDS];

/// A word for each variable; places past the variable count are ignored.
pub type Point = [u64; POINT_WORDS];

/// The number of an atom in its bank.
#[derive(Clone, Copy, Debug, PartialEq, Eq, PartialOrd, Ord, Hash)]
pub struct AtomSlot(pub u32);

/// The number of a pair in its index.
#[derive(Clone, Copy, Debug, PartialEq, Eq, PartialOrd, Ord, Hash)]
pub struct PairSlot(pub u32);

/// A gate on rows: what each gives is modulo 2^w.
#[derive(Clone, Copy, Debug, PartialEq, Eq, Hash)]
pub enum Gate {
    /// Gate 0.
    And,
    /// Gate 1.
    Or,
    /// Gate 2.
    Xor,
    /// Gate 3.
    Add,
    /// Gate 4.
    Mul,
}

impl Gate {
    /// All gates, in number order.
    pub const ALL: [Gate; 5] = [Gate::And, Gate::Or, Gate::Xor, Gate::Add, Gate::Mul];

    /// The gate of a number, if it has one.
    pub fn from_number(number: u32) -> Option<Self> {
        Gate::ALL.into_iter().find(|gate| gate.number() == number)
    }

    /// Its number.
    pub fn number(self) -> u32 {
        match self {
            Gate::And => 0,
            Gate::Or => 1,
            Gate::Xor => 2,
            Gate::Add => 3,
            Gate::Mul => 4,
        }
    }

    /// The same operation in a formula.
    pub fn token(self) -> Token {
        match self {
            Gate::And => Token::And,
            Gate::Or => Token::Or,
            Gate::Xor => Token::Xor,
            Gate::Add => Token::Add,
            Gate::Mul => Token::Mul,
        }
    }
}

/// A formula's cost. Costs are ordered by size, then products, then depth: the smaller is the better.
#[derive(Clone, Copy, Debug, PartialEq, Eq, PartialOrd, Ord, Hash)]
pub struct Cost {
    /// The weighted size.
    pub size: u32,
    /// The nonlinear products.
    pub products: u32,
    /// The depth.
    pub depth: u32,
}

impl Cost {
    /// Whether this cost is strictly smaller; the first difference decides.
    pub fn is_better(self, other: Self) -> bool {
        crate::lent::is_better(self, other)
    }
}

/// As in the listing: size, products, depth.
impl fmt::Display for Cost {
    fn fmt(&self, f: &mut fmt::Formatter<'_>) -> fmt::Result {
        write!(f, "{} {} {}", self.size, self.products, self.depth)
    }
}

/// What the product search over lent arrays answers, by slots: the cheapest product that is the target, and the first in the order of the
/// search among equals. [`ProductAnswer`](crate::ProductAnswer) has the atoms and the pair.
#[derive(Clone, Copy, Debug, PartialEq, Eq)]
pub enum Product {
    /// Two atoms whose product is the target.
    Atoms(AtomSlot, AtomSlot),
    /// An atom and a listed pair whose product is the target.
    AtomPair(AtomSlot, PairSlot),
    /// Neither two atoms nor an atom and a listed pair have the target as their product.
    Nothing,
}

/// What the residual search over lent arrays answers, by slots; [`CompletionAnswer`](crate::CompletionAnswer) has the atoms and the pair.
/// The outer gate comes first, Xor or Add; the atom after it is the one that is completed.
#[derive(Clone, Copy, Debug, PartialEq, Eq)]
pub enum Completion {
    /// An atom that an atom completes to the target.
    Atoms(Gate, AtomSlot, AtomSlot),
    /// An atom that a listed pair completes to the target.
    AtomPair(Gate, AtomSlot, PairSlot),
    /// Neither an atom nor a listed pair completes an atom to the target, under Xor or under Add.
    Nothing,
}

/// The window of a rule: it fires at a record where in at least M of the last W records, the present one included, its formula was nonzero.
/// Any numbers may be handed in; the calls refuse 10 where M isn't 1 to W or W isn't 1 to 64.
#[derive(Clone, Copy, Debug, PartialEq, Eq, Hash)]
pub struct Window {
    /// M: how many records it takes.
    pub least: u32,
    /// W: of how many, the present one included.
    pub records: u32,
}

/// A closing log: what it shows of the sounding that was opened last, and what each rule's window has seen of it. Any numbers may be handed
/// in; all zeros, the default, is the empty log, before any opening.
// laid out as the library's, so that a call's copies go over whole
#[derive(Clone, Copy, Debug, Default, PartialEq, Eq, Hash)]
#[repr(C)]
pub struct LogState {
    /// Whether a sounding is open: 0 for no, any other number for yes; the calls hand back 0 or 1.
    pub open: u32,
    /// The rank that closed it; 0 for none.
    pub rank: u32,
    /// The number of its last record, from 1; 0 before the first.
    pub number: u64,
    /// The number of the record that closed it; 0 for none.
    pub closed_at: u64,
    /// How many records after that had a firing.
    pub later: u64,
    /// For the rule at each place the marks of the last 64 records, as [`Rule::state`](crate::Rule::state) has them.
    pub windows: [u64; LOG_RULES_MAX],
}

impl LogState {
    /// Whether a sounding is open.
    pub fn is_open(&self) -> bool {
        self.open != 0
    }

    /// The close; none if there was none.
    pub fn close(&self) -> Option<Close> {
        (self.closed_at != 0).then_some(Close {
            number: self.closed_at,
            rank: self.rank,
        })
    }
}

/// A sounding's close: the first record at which some rule fired, and the least rank of those that fired there.
#[derive(Clone, Copy, Debug, PartialEq, Eq, Hash)]
pub struct Close {
    /// The record's number in its sounding, from 1.
    pub number: u64,
    /// The rank.
    pub rank: u32,
}

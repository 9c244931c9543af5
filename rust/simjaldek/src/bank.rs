//! A bank that owns its arrays, and its atoms.

use crate::lent::{self, Atoms, BankArrays, WrittenAtoms};
use crate::{
    AtomSlot, Cost, Formula, FormulaError, Points, Refusal, Row, ATOMS_MAX, ATOM_TOKENS, ROW_WORDS,
};
use std::fmt;

/// The numbers of a cost.
const COST_NUMBERS: usize = 3;

/// A bank of atoms: formulas of weighted size at most 6, no two with one row. It keeps the points that its rows belong to.
#[derive(Clone, Debug, PartialEq, Eq)]
pub struct Bank {
    points: Points,
    lengths: Vec<u32>,
    ops: Vec<u8>,
    operands: Vec<u64>,
    costs: Vec<u32>,
    rows: Vec<u64>,
}

impl Bank {
    /// Builds the bank of the points' variables, with the target's seeds. The target is a row at these points; seeds of another row are
    /// constants like any others. Refuses 5 for a target word.
    ///
    /// **What the target does.** The OR of its words and its first seven nonzero words become constants of the bank: at most eight
    /// more atoms, or cheaper formulas for rows that are held anyway. All else is the same for every target.
    ///
    /// **One bank for several targets.** What a search finds is right at the points for any target. "Nothing" speaks of this bank's
    /// atoms alone: a constant that only the other target would have seeded isn't among them. Where the answer must be the one of a
    /// fresh search, build a bank for each target.
    pub fn build(points: &Points, target: &Row) -> Result<Self, Refusal> {
        let mut bank = Bank {
            points: points.clone(),
            lengths: vec![0; ATOMS_MAX],
            ops: vec![0; ATOM_TOKENS * ATOMS_MAX],
            operands: vec![0; ATOM_TOKENS * ATOMS_MAX],
            costs: vec![0; COST_NUMBERS * ATOMS_MAX],
            rows: vec![0; ROW_WORDS * ATOMS_MAX],
        };
        let arrays = BankArrays {
            lengths: &mut bank.lengths,
            ops: &mut bank.ops,
            operands: &mut bank.operands,
            costs: &mut bank.costs,
            rows: &mut bank.rows,
            work: &mut vec![0; lent::work_len(0)],
        };
        let words = points.words().as_flattened();
        let count = lent::build_bank(points.num_vars(), points.width(), words, target, arrays)?;
        bank.keep(count);
        Ok(bank)
    }

    /// Builds the bank with a formula's own row as the target. Refuses 6.
    pub fn build_for(points: &Points, formula: Formula<'_>) -> Result<Self, FormulaError> {
        let target = points.row(formula)?;
        Ok(Bank::build(points, &target)?)
    }

    /// Drops the places beyond the count.
    fn keep(&mut self, count: usize) {
        self.lengths.truncate(count);
        self.ops.truncate(ATOM_TOKENS * count);
        self.operands.truncate(ATOM_TOKENS * count);
        self.costs.truncate(COST_NUMBERS * count);
        self.rows.truncate(ROW_WORDS * count);
    }

    /// The points that the rows belong to.
    pub fn points(&self) -> &Points {
        &self.points
    }

    /// How many variables.
    pub fn num_vars(&self) -> u32 {
        self.points.num_vars()
    }

    /// The width in bits.
    pub fn width(&self) -> u32 {
        self.points.width()
    }

    /// How many atoms.
    pub fn len(&self) -> usize {
        self.lengths.len()
    }

    /// Whether there is no atom.
    pub fn is_empty(&self) -> bool {
        self.lengths.is_empty()
    }

    /// All atoms, by slot.
    pub fn atoms(&self) -> impl ExactSizeIterator<Item = Atom<'_>> {
        (0..self.len()).map(|slot| Atom { bank: self, slot })
    }

    /// The atom of a slot; none for one that is not below the count. A slot is a number of one bank: [`Atom`] can't be taken to
    /// another, and is the better thing to keep.
    pub fn atom(&self, slot: AtomSlot) -> Option<Atom<'_>> {
        let slot = slot.0 as usize;
        (slot < self.len()).then_some(Atom { bank: self, slot })
    }

    /// The atom with this row, or none. A row of other points is words like any others. Refuses 5.
    pub fn find_row(&self, row: &Row) -> Result<Option<Atom<'_>>, Refusal> {
        let found = lent::find_row(self.width(), self.lend(), row)?;
        Ok(found.and_then(|slot| self.atom(slot)))
    }

    /// The rows, lent.
    pub fn lend(&self) -> Atoms<'_> {
        self.lend_written().rows()
    }

    /// The formulas and rows, lent.
    pub fn lend_written(&self) -> WrittenAtoms<'_> {
        WrittenAtoms {
            count: self.len(),
            lengths: &self.lengths,
            ops: &self.ops,
            operands: &self.operands,
            rows: &self.rows,
        }
    }
}

/// An atom of a bank.
#[derive(Clone, Copy)]
pub struct Atom<'b> {
    bank: &'b Bank,
    /// Below the bank's count.
    slot: usize,
}

impl<'b> Atom<'b> {
    /// Its number in the bank.
    pub fn slot(self) -> AtomSlot {
        AtomSlot(self.slot as u32)
    }

    /// Its formula.
    pub fn formula(self) -> Formula<'b> {
        let length = self.bank.lengths[self.slot] as usize;
        let ops = &self.bank.ops[ATOM_TOKENS * self.slot..][..length];
        let operands = &self.bank.operands[ATOM_TOKENS * self.slot..][..length];
        Formula::new(ops, operands).expect("both have the atom's length")
    }

    /// Its cost.
    pub fn cost(self) -> Cost {
        let numbers = &self.bank.costs[COST_NUMBERS * self.slot..];
        Cost {
            size: numbers[0],
            products: numbers[1],
            depth: numbers[2],
        }
    }

    /// Its row at the bank's points.
    pub fn row(self) -> &'b Row {
        let row =
            lent::atom_row(self.bank.lend(), self.slot()).expect("the slot is below the count");
        row.try_into().expect("a row has sixteen words")
    }
}

/// The same slot of the very same bank; not of a copy.
impl PartialEq for Atom<'_> {
    fn eq(&self, other: &Self) -> bool {
        std::ptr::eq(self.bank, other.bank) && self.slot == other.slot
    }
}

impl Eq for Atom<'_> {}

impl fmt::Debug for Atom<'_> {
    fn fmt(&self, f: &mut fmt::Formatter<'_>) -> fmt::Result {
        write!(f, "Atom({}: {})", self.slot, self.formula())
    }
}

/// Its formula.
impl fmt::Display for Atom<'_> {
    fn fmt(&self, f: &mut fmt::Formatter<'_>) -> fmt::Result {
        self.formula().fmt(f)
    }
}

//! Where the originals differ from the specification, as text for a reader. `known` and `smallest` are about the two differences of the
//! product search, `gates` about that of the gates; `random` looks for more where none is expected.
//!
//! D1: the Rust's filter misses pairs whose first word is not below 2^w. That takes a lent index: one of a greater width than the
//! search's, or rows that no build made. D2: the specification keeps the cheapest product; the Rust the cheapest of two atoms, and only
//! where there is none the first atom and pair. D3: the Rust's And, Or and Xor, and its inverse of Xor, don't reduce.

pub mod gates;
pub mod known;
mod random;
mod smallest;

use crate::access::{self, AtomView, IndexView, Row, Trial};

use crate::made::indexes;
use crate::spec::product::Written;

/// The Rust's limit of an index.
const PAIRS_MAX: usize = 1 << 18;

/// Prints everything.
pub fn print() {
    known::print();
    gates::print();
    smallest::print();
    random::print();
}

/// A bank with an index of its own, and the width of the search.
pub struct Setting {
    pub atoms: Vec<AtomView>,
    pub rows: Vec<Row>,
    pub index: IndexView,
    pub width: u32,
}

impl Setting {
    /// With the index at the search's width.
    pub fn new(atoms: Vec<AtomView>, limit: usize, width: u32) -> Self {
        Self::with_index(atoms, limit, width, width)
    }

    /// With an index of another width than the search's.
    pub fn with_index(atoms: Vec<AtomView>, limit: usize, index_width: u32, width: u32) -> Self {
        let rows: Vec<Row> = atoms.iter().map(|atom| atom.row).collect();
        let index = indexes::index(&rows, index_width, limit);
        Self::lent(atoms, index, width)
    }

    /// With any index.
    pub fn lent(atoms: Vec<AtomView>, index: IndexView, width: u32) -> Self {
        let rows = atoms.iter().map(|atom| atom.row).collect();
        Self {
            atoms,
            rows,
            index,
            width,
        }
    }

    /// What the search reads.
    pub fn written(&self) -> Written<'_> {
        Written {
            atoms: &self.atoms,
            index: &self.index,
            width: self.width,
        }
    }

    pub fn try_everything(&self, target: &Row) -> Option<Trial> {
        self.written().try_everything(target)
    }

    pub fn product_loop(&self, target: Row) -> Option<Trial> {
        self.product_loops(&[target])[0]
    }

    pub fn product_loops(&self, targets: &[Row]) -> Vec<Option<Trial>> {
        access::product_loops(targets, &self.rows, &self.index.rows, self.width)
    }

    pub fn two_atoms(&self, target: Row) -> Option<Trial> {
        self.two_atoms_each(&[target])[0]
    }

    pub fn two_atoms_each(&self, targets: &[Row]) -> Vec<Option<Trial>> {
        access::two_atoms(targets, &self.atoms, self.width)
    }

    /// The Rust's two loops, each to its end.
    pub fn least_product(&self, target: Row) -> Option<Trial> {
        access::least_products(&[target], &self.atoms, &self.index, self.width)[0]
    }
}

/// Sixteen points: the given ones over and over.
fn repeated_points(points: &[Vec<u64>]) -> Vec<Vec<u64>> {
    points.iter().cycle().take(16).cloned().collect()
}

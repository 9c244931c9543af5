//! Indexes of atoms' rows.

use crate::access::{self, IndexView, Row};
use crate::spec::gates::are_reduced;
use crate::spec::index as spec;

/// The first pairs, up to a limit: the Rust's over reduced rows; over others, whose high bits the Rust's gates leave in place
/// (docs/DIFFERENCES.md, D3), the specification's.
pub fn index(atoms: &[Row], width: u32, limit: usize) -> IndexView {
    if are_reduced(atoms, width) {
        access::index(atoms, width, limit)
    } else {
        spec::view(atoms, width, limit)
    }
}

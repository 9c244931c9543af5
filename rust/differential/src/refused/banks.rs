//! The bank build, finding a row, handing one back.

use oracle::inputs::Inputs;
use oracle::spec::bank::{Handed, ARRAY_LENGTHS, ATOMS_MAX};
use oracle::spec::refusals::{
    least, NONE, REFUSED_COUNT, REFUSED_LENGTH, REFUSED_WIDTH, REFUSED_WORD,
};
use simjaldek::lent::{self, Atoms};
use simjaldek::AtomSlot;

use super::{claimed, cut, damages, length, num_vars, number, padded, reach, row_words, widths};
use crate::buffers::{garbage_u64, BankBuffers};
use crate::report::{Kind, Report};

pub fn build(inputs: &mut Inputs, report: &mut Report) {
    let num_vars = num_vars(inputs);
    let (good, width) = widths(inputs);
    let points = points(inputs, num_vars, good);
    let target = row_words(inputs, good);
    let lengths = ARRAY_LENGTHS.map(|needed| length(inputs, needed));
    let mut buffers = BankBuffers::new(inputs, lengths);
    let before = buffers.clone();
    let refused = number(lent::build_bank(
        num_vars,
        width,
        &points,
        &target,
        buffers.lend(),
    ));
    let handed = Handed {
        num_vars: num_vars.into(),
        width: width.into(),
        points: sixteen_points(&points),
        target: padded(&target),
        array_lengths: lengths,
    };
    let short = points.len() < 96 || target.len() < 16;
    let slices = if short { REFUSED_LENGTH } else { NONE };
    let expected = least(slices, handed.refusal());
    let ours = (refused, refused == NONE || buffers == before);
    let input = (num_vars, width, points, target, lengths);
    report.refusal(Kind::RefusedBank, &input, ours, expected);
}

/// Points below 2^width with garbage past the variables; here and there a word that reaches it, or too few words.
fn points(inputs: &mut Inputs, num_vars: u32, width: u32) -> Vec<u64> {
    let mut points = garbage_u64(inputs, 96);
    for point in points.chunks_mut(6) {
        for word in point.iter_mut().take(num_vars as usize) {
            *word >>= 64 - width;
        }
    }
    if damages(inputs) {
        reach(inputs, &mut points, width);
    }
    cut(inputs, &mut points);
    points
}

/// Sixteen points of a slice, zeros where it ends.
fn sixteen_points(words: &[u64]) -> [[u64; 6]; 16] {
    let word = |place: usize| words.get(place).copied().unwrap_or(0);
    std::array::from_fn(|point| std::array::from_fn(|variable| word(6 * point + variable)))
}

/// Rows of a few atoms, or of more than there can be; the count that is claimed.
fn atoms(inputs: &mut Inputs) -> (usize, Vec<u64>) {
    let most = ATOMS_MAX + 1;
    let any = inputs.below(5) as usize;
    let count = inputs.one_of(&[any, any, any, ATOMS_MAX, most]);
    let mut rows = garbage_u64(inputs, 16 * count);
    cut(inputs, &mut rows);
    (claimed(inputs, count), rows)
}

fn is_short(rows: &[u64], count: usize) -> bool {
    (rows.len() as u128) < 16 * count as u128
}

/// The table for finding a row: 2, 4, 5, 7.
pub fn find_row(inputs: &mut Inputs, report: &mut Report) {
    let (good, width) = widths(inputs);
    let (count, rows) = atoms(inputs);
    let row = row_words(inputs, good);
    let expected = if !(1..=64).contains(&width) {
        REFUSED_WIDTH
    } else if is_short(&rows, count) || row.len() < 16 {
        REFUSED_LENGTH
    } else if row.iter().any(|&word| u128::from(word) >> width != 0) {
        REFUSED_WORD
    } else if count > ATOMS_MAX {
        REFUSED_COUNT
    } else {
        NONE
    };
    let lent_atoms = Atoms { count, rows: &rows };
    let refused = number(lent::find_row(width, lent_atoms, &row));
    let input = (width, count, rows.len(), row);
    report.refusal(Kind::RefusedFindRow, &input, (refused, true), expected);
}

/// The table for handing back a row: 4, 7.
pub fn atom_row(inputs: &mut Inputs, report: &mut Report) {
    let (count, rows) = atoms(inputs);
    let any = inputs.below(count.min(480) as u64 + 2) as u32;
    let slot = inputs.one_of(&[any, any, any, u32::MAX]);
    let expected = if is_short(&rows, count) {
        REFUSED_LENGTH
    } else if count > ATOMS_MAX || slot as usize >= count {
        REFUSED_COUNT
    } else {
        NONE
    };
    let lent_atoms = Atoms { count, rows: &rows };
    let refused = number(lent::atom_row(lent_atoms, AtomSlot(slot)));
    let input = (count, rows.len(), slot);
    report.refusal(Kind::RefusedAtomRow, &input, (refused, true), expected);
}

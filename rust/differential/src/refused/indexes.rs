//! The index build.

use oracle::inputs::Inputs;
use oracle::spec::bank::ATOMS_MAX;
use oracle::spec::index::{Handed, PAIRS_MAX};
use oracle::spec::refusals::NONE;
use simjaldek::lent::{self, Atoms};

use super::{claimed, cut, damages, length, number, widths};
use crate::buffers::{garbage_u64, IndexBuffers};
use crate::report::{Kind, Report};

/// A small limit whose arrays are lent, and the limit that is handed in.
fn limits(inputs: &mut Inputs) -> (u64, u64) {
    let limit = inputs.below(40);
    if damages(inputs) {
        return (limit, inputs.one_of(&[PAIRS_MAX, PAIRS_MAX + 1, u64::MAX]));
    }
    (limit, limit)
}

pub fn build(inputs: &mut Inputs, report: &mut Report) {
    let (_, width) = widths(inputs);
    let any = inputs.below(6) as usize;
    let atoms = inputs.one_of(&[any, any, any, any, any, ATOMS_MAX + 1]);
    let mut rows = garbage_u64(inputs, 16 * atoms);
    cut(inputs, &mut rows);
    let count = claimed(inputs, atoms);
    let (places, limit) = limits(inputs);
    let needed = [
        3 * places,
        16 * places,
        places,
        4 * (places + ATOMS_MAX as u64),
    ];
    let lengths = needed.map(|needed| length(inputs, needed));
    let mut buffers = IndexBuffers::new(inputs, lengths.map(|length| length as usize));
    let before = buffers.clone();
    let lent_atoms = Atoms { count, rows: &rows };
    let refused = number(lent::build_index(
        width,
        lent_atoms,
        limit as usize,
        buffers.lend(),
    ));
    let [pairs, pair_rows, order, work] = lengths;
    let handed = Handed {
        width: width.into(),
        count: count as u64,
        rows: rows.len() as u64,
        limit,
        pairs,
        pair_rows,
        order,
        work,
    };
    let ours = (refused, refused == NONE || buffers == before);
    let input = (width, count, rows.len(), limit, lengths);
    report.refusal(Kind::RefusedIndex, &input, ours, handed.refusal());
}

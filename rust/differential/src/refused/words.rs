//! Points, gates on rows, fingerprints.

use oracle::inputs::Inputs;
use oracle::spec::refusals::{NONE, REFUSED_FORMULA, REFUSED_LENGTH, REFUSED_VARS, REFUSED_WIDTH};
use simjaldek::lent;

use super::{cut, damages, num_vars, number, widths};
use crate::report::{Kind, Report};

pub fn compare(inputs: &mut Inputs, report: &mut Report) {
    points(inputs, report);
    gates(inputs, report);
    let row = row(inputs);
    let refused = number(lent::fingerprint(&row));
    let expected = if row.len() < 16 { REFUSED_LENGTH } else { NONE };
    report.refusal(Kind::RefusedFingerprint, &row, (refused, true), expected);
}

/// The table for points: 1, 2.
fn points(inputs: &mut Inputs, report: &mut Report) {
    let (_, width) = widths(inputs);
    let num_vars = num_vars(inputs);
    let expected = if !(1..=6).contains(&num_vars) {
        REFUSED_VARS
    } else if !(1..=64).contains(&width) {
        REFUSED_WIDTH
    } else {
        NONE
    };
    let refused = number(lent::probe_points(num_vars, width));
    report.refusal(
        Kind::RefusedPoints,
        &(num_vars, width),
        (refused, true),
        expected,
    );
}

/// The table for gates on rows as slices: 2, 4, and 6 for a number that is no gate's. Three calls, three comparisons.
fn gates(inputs: &mut Inputs, report: &mut Report) {
    let (_, width) = widths(inputs);
    let [a, b, c] = [0; 3].map(|_| row(inputs));
    let mut gate = inputs.below(5) as u32;
    if damages(inputs) {
        gate = inputs.one_of(&[5, 6, u32::MAX]);
    }
    let expected = |rows: &[&Vec<u64>]| gate_refusal(width, rows, gate);
    let input = (&a, &b, &c, gate, width);
    let refused = number(lent::gate_apply(&a, &b, gate, width));
    report.refusal(
        Kind::RefusedGate,
        &input,
        (refused, true),
        expected(&[&a, &b]),
    );
    let refused = number(lent::gate_residual(&a, &b, gate, width));
    report.refusal(
        Kind::RefusedGate,
        &input,
        (refused, true),
        expected(&[&a, &b]),
    );
    let refused = number(lent::gate_matches(&a, &b, &c, gate, width));
    report.refusal(
        Kind::RefusedGate,
        &input,
        (refused, true),
        expected(&[&a, &b, &c]),
    );
}

fn gate_refusal(width: u32, rows: &[&Vec<u64>], gate: u32) -> u64 {
    if !(1..=64).contains(&width) {
        REFUSED_WIDTH
    } else if rows.iter().any(|row| row.len() < 16) {
        REFUSED_LENGTH
    } else if gate > 4 {
        REFUSED_FORMULA
    } else {
        NONE
    }
}

/// Any words, here and there too few.
fn row(inputs: &mut Inputs) -> Vec<u64> {
    let mut words = inputs.row(64).to_vec();
    cut(inputs, &mut words);
    words
}

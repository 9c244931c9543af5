//! Formulas drawn from counts, widths, limits and into arrays that are good or not.

use oracle::inputs::Inputs;
use oracle::spec::lent::DrawFormula;
use simjaldek::lent;

use super::{damages, length, num_vars, number, widths};
use crate::buffers::{garbage_u64, garbage_u8};
use crate::report::{Kind, Report};

/// Places of an array for a limit that no array has.
const PLACES: u64 = 70;

/// One formula, or its refusal.
pub fn draw(inputs: &mut Inputs, report: &mut Report) {
    let (_, width) = widths(inputs);
    let num_vars = num_vars(inputs);
    let limit = limit(inputs);
    let needed = limit.min(PLACES as usize) as u64;
    let handed = DrawFormula {
        num_vars: num_vars.into(),
        width: width.into(),
        limit: limit as u64,
        ops: length(inputs, needed),
        operands: length(inputs, needed),
    };
    let mut ops = garbage_u8(inputs, handed.ops as usize);
    let mut operands = garbage_u64(inputs, handed.operands as usize);
    let before = (ops.clone(), operands.clone());
    let state = inputs.word();
    let drawn = lent::draw_formula(state, num_vars, width, limit, &mut ops, &mut operands);
    let kept = drawn.is_ok() || (ops, operands) == before;
    report.refusal(
        Kind::RefusedDraw,
        &(handed, state),
        (number(drawn), kept),
        handed.refusal(),
    );
}

/// A limit, good or not; some are good when cut to fewer bits.
fn limit(inputs: &mut Inputs) -> usize {
    if damages(inputs) {
        return inputs.one_of(&[0, 65, 66, 256 + 7, (1 << 32) + 7, 1 << 63, usize::MAX]);
    }
    1 + inputs.below(64) as usize
}

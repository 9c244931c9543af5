//! `crate::passes::spot_check`: the check of a candidate at further points. It always passes, as the specification takes
//! it ("with its check taken as passed").

use crate::core::evaluator::Evaluator;
use crate::core::expr::Expr;

pub const DEFAULT_NUM_SAMPLES: u32 = 8;

/// The check's answer; the originals read only this field.
pub struct CheckResult {
    pub passed: bool,
}

pub fn full_width_check_eval(
    _original: &Evaluator,
    _num_vars: u32,
    _simplified: &Expr,
    _bitwidth: u32,
    _num_samples: u32,
) -> CheckResult {
    CheckResult { passed: true }
}

//! `crate::core::width`: the test of widths before `try_compile`, which nothing here calls. It always passes.

use super::result::Result;
use crate::core::expr::Expr;

pub fn validate_widths(_expr: &Expr, _var_widths: &[u32], _bitwidth: u32) -> Result<()> {
    Ok(())
}

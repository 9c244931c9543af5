//! The formula test of the plain sides.

use oracle::spec::formulas::TOKENS_MAX;
use simjaldek::lent::Tokens;

/// What refusal 6 tests, for arrays that are long enough.
#[inline]
pub fn is_formula(num_vars: u64, tokens: Tokens<'_>) -> bool {
    if !(1..=TOKENS_MAX).contains(&tokens.count) {
        return false;
    }
    let mut values = 0usize;
    for (&op, &operand) in tokens.ops.iter().zip(tokens.operands).take(tokens.count) {
        let (fit, takes) = match op {
            0 => (true, 0),
            1 => (operand < num_vars, 0),
            2..=6 => (operand == 0, 2),
            7 | 8 => (operand == 0, 1),
            _ => (false, 0),
        };
        if !fit || values < takes {
            return false;
        }
        values = values - takes + 1;
    }
    values == 1
}

#[cfg(test)]
mod tests {
    use super::is_formula;
    use oracle::inputs::Inputs;
    use oracle::made::formulas::{Lean, Maker};
    use simjaldek::lent::{self, Tokens};

    /// It is the library's, over formulas with a token changed.
    #[test]
    fn formulas() {
        let inputs = &mut Inputs::from_seed(3);
        let mut there = [0; 2];
        for turn in 0..2000 {
            let mut maker = Maker {
                inputs,
                num_vars: 2,
                width: 8,
            };
            let mut formula = maker.formula(1 + turn % 66, Lean::Any);
            let place = inputs.below(formula.ops.len() as u64) as usize;
            formula.ops[place] = inputs.below(10) as u8;
            formula.operands[place] = inputs.below(3);
            let tokens = Tokens {
                count: formula.ops.len(),
                ops: &formula.ops,
                operands: &formula.operands,
            };
            let is = lent::is_formula(2, tokens);
            assert_eq!(is_formula(2, tokens), is);
            there[usize::from(is)] += 1;
        }
        assert!(there.iter().all(|&count| count > 100), "{there:?}");
    }
}

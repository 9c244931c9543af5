//! Formulas: values, costs and their order, rows.

use oracle::access::{self, Formula, Row};
use oracle::inputs::Inputs;
use oracle::made::formulas::{Lean, Maker};
use oracle::spec::formulas::TOKENS_MAX;
use simjaldek::lent::{self, Tokens};
use simjaldek::Cost;

use crate::buffers::{flat_points, longer};
use crate::report::{Kind, Report};

const FORMULAS: usize = 8;

/// Random formulas over these points.
pub fn compare(inputs: &mut Inputs, report: &mut Report, points: &[Vec<u64>], width: u32) {
    for _ in 0..FORMULAS {
        let (formula, words) = random_formula(inputs, points[0].len() as u64, width);
        compare_formula(inputs, report, &formula, &words, width);
        compare_row(inputs, report, &formula, points, width);
    }
}

/// A formula of 1 to 64 tokens, one time in four as the test load draws it, and a word for each variable.
pub fn random_formula(inputs: &mut Inputs, num_vars: u64, width: u32) -> (Formula, Vec<u64>) {
    let most = inputs.one_of(&[6, 16, TOKENS_MAX as u64]);
    let count = 1 + inputs.below(most) as usize;
    let lean = inputs.one_of(&[Lean::Left, Lean::Right, Lean::Any, Lean::Any]);
    let is_drawn = inputs.below(4) == 0;
    let mut maker = Maker {
        inputs,
        num_vars,
        width,
    };
    let formula = if is_drawn {
        maker.drawn(most)
    } else {
        maker.formula(count, lean)
    };
    (formula, maker.words())
}

/// The tokens with garbage after them, or nothing.
struct Lent {
    count: usize,
    ops: Vec<u8>,
    operands: Vec<u64>,
}

impl Lent {
    fn new(inputs: &mut Inputs, formula: &Formula) -> Self {
        let ops: Vec<u64> = formula.ops.iter().copied().map(u64::from).collect();
        Lent {
            count: ops.len(),
            ops: longer(inputs, &ops).iter().map(|&op| op as u8).collect(),
            operands: longer(inputs, &formula.operands),
        }
    }

    fn tokens(&self) -> Tokens<'_> {
        Tokens {
            count: self.count,
            ops: &self.ops,
            operands: &self.operands,
        }
    }
}

/// Value and cost of both sides.
fn compare_formula(
    inputs: &mut Inputs,
    report: &mut Report,
    formula: &Formula,
    words: &[u64],
    width: u32,
) {
    let num_vars = words.len() as u32;
    let input = (num_vars, width, formula, words);
    let lent = Lent::new(inputs, formula);
    let value = lent::evaluate(num_vars, width, lent.tokens(), &longer(inputs, words));
    let theirs = access::eval(formula, width, words);
    report.compare(Kind::Value, &input, &value, &Ok(theirs));
    let cost = lent::compute_cost(num_vars, lent.tokens());
    let [size, products, depth] = access::compute_cost(formula);
    let theirs = Cost {
        size,
        products,
        depth,
    };
    report.compare(Kind::Cost, &input, &cost, &Ok(theirs));
    let near = [size, products, depth].map(|n| (n + inputs.below(3) as u32).saturating_sub(1));
    let other = Cost {
        size: near[0],
        products: near[1],
        depth: near[2],
    };
    let better = access::is_better([size, products, depth], near);
    let ours = theirs.is_better(other);
    report.compare(Kind::IsBetter, &(theirs, other), &ours, &better);
}

/// The row of both sides.
fn compare_row(
    inputs: &mut Inputs,
    report: &mut Report,
    formula: &Formula,
    points: &[Vec<u64>],
    width: u32,
) {
    let num_vars = points[0].len() as u32;
    let lent = Lent::new(inputs, formula);
    let flat = flat_points(inputs, points);
    let row = lent::probe_row(num_vars, width, &flat, lent.tokens());
    let theirs: Row = std::array::from_fn(|place| access::eval(formula, width, &points[place]));
    report.compare(
        Kind::FormulaRow,
        &(width, formula, points),
        &row,
        &Ok(theirs),
    );
}

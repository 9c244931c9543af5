//! Value and cost of formulas: a mix of all sizes, each side over its own form of the same formulas.

use std::hint::black_box;
use std::sync::Arc;

use oracle::access::{expr_of, Formula};
use oracle::core::evaluator::Evaluator;
use oracle::core::expr::Expr;
use oracle::core::expr_cost::{self, ExprCost};
use oracle::made::formulas::{Lean, Maker};
use oracle::spec::formulas::TOKENS_MAX;
use simjaldek::lent::{self, Tokens};
use simjaldek::Cost;

use crate::measure::{alternate, together, Plan, Times};
use crate::setting::inputs;
use crate::Call;

/// Formulas of each size, by their shapes.
const SHAPES: [Lean; 4] = [Lean::Left, Lean::Right, Lean::Any, Lean::Any];

/// Formulas with their input words.
struct Mix {
    num_vars: u32,
    width: u32,
    formulas: Vec<Mixed>,
}

/// One formula as the sides hold it.
struct Mixed {
    formula: Formula,
    tree: Arc<Expr>,
    compiled: Evaluator,
    words: Vec<u64>,
}

/// Times a formula's value and cost; the calls of a round are one for each formula of the mix.
pub fn time(plan: &Plan, num_vars: u32, width: u32, take: &mut impl FnMut(Call, String, Times)) {
    check(num_vars, width);
    let mix = &Mix::new(num_vars, width);
    let count = mix.formulas.len();
    let mut timed = |call, ours: fn(&Mix), rust: fn(&Mix)| {
        let mut ours = together(|| ours(mix));
        let mut rust = together(|| rust(mix));
        let times = alternate(plan, &mut ours, &mut rust).per(count);
        let note = format!("{count} formulas of 1 to {TOKENS_MAX} tokens");
        take(call, note, times);
    };
    timed(Call::Evaluate, Mix::our_values, Mix::rust_values);
    timed(
        Call::EvaluateCompiled,
        Mix::our_values,
        Mix::compiled_values,
    );
    timed(Call::Cost, Mix::our_costs, Mix::rust_costs);
}

/// Both sides have the same values and costs.
pub fn check(num_vars: u32, width: u32) {
    let mix = Mix::new(num_vars, width);
    for mixed in &mix.formulas {
        let value = mix.our_value(mixed);
        assert_eq!(value, mix.rust_value(mixed));
        assert_eq!(value, mixed.compiled.eval(&mixed.words));
        let (ours, rust) = (mix.our_cost(mixed), rust_cost(mixed));
        let numbers = [ours.size, ours.products, ours.depth];
        let theirs = [rust.weighted_size, rust.nonlinear_mul_count, rust.max_depth];
        assert_eq!(numbers, theirs);
    }
}

impl Mix {
    /// Formulas of every size from 1 token on, in each shape, one size after the other.
    fn new(num_vars: u32, width: u32) -> Self {
        let inputs = &mut inputs(num_vars, width, 2);
        let mut maker = Maker {
            inputs,
            num_vars: num_vars.into(),
            width,
        };
        let shapes = (1..=TOKENS_MAX).flat_map(|size| SHAPES.map(|shape| (size, shape)));
        let formulas = shapes
            .map(|(size, shape)| {
                let formula = maker.formula(size, shape);
                Mixed::new(formula, maker.words(), width)
            })
            .collect();
        Mix {
            num_vars,
            width,
            formulas,
        }
    }

    /// Our evaluation: tests the formula and gives its value.
    fn our_value(&self, mixed: &Mixed) -> u64 {
        let value = lent::evaluate(self.num_vars, self.width, mixed.tokens(), &mixed.words);
        value.expect("a formula")
    }

    /// The reference: `Evaluator::from_expr`, then `eval`.
    fn rust_value(&self, mixed: &Mixed) -> u64 {
        Evaluator::from_expr(&mixed.tree, self.width).eval(&mixed.words)
    }

    fn our_cost(&self, mixed: &Mixed) -> Cost {
        lent::compute_cost(self.num_vars, mixed.tokens()).expect("a formula")
    }

    fn our_values(&self) {
        for mixed in &self.formulas {
            black_box(self.our_value(black_box(mixed)));
        }
    }

    fn rust_values(&self) {
        for mixed in &self.formulas {
            black_box(self.rust_value(black_box(mixed)));
        }
    }

    fn compiled_values(&self) {
        for mixed in &self.formulas {
            let mixed = black_box(mixed);
            black_box(mixed.compiled.eval(&mixed.words));
        }
    }

    fn our_costs(&self) {
        for mixed in &self.formulas {
            black_box(self.our_cost(black_box(mixed)));
        }
    }

    fn rust_costs(&self) {
        for mixed in &self.formulas {
            black_box(rust_cost(black_box(mixed)));
        }
    }
}

/// `compute_cost` of expr_cost.rs.
fn rust_cost(mixed: &Mixed) -> ExprCost {
    expr_cost::compute_cost(&mixed.tree).cost
}

impl Mixed {
    fn new(formula: Formula, words: Vec<u64>, width: u32) -> Self {
        let tree = expr_of(&formula);
        let compiled = Evaluator::from_expr(&tree, width);
        Mixed {
            formula,
            tree,
            compiled,
            words,
        }
    }

    fn tokens(&self) -> Tokens<'_> {
        Tokens {
            count: self.formula.ops.len(),
            ops: &self.formula.ops,
            operands: &self.formula.operands,
        }
    }
}

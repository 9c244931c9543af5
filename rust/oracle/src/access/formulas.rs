//! Formulas: postfix tokens to and from the originals' trees.

use std::sync::Arc;

use crate::core::evaluator::Evaluator;
use crate::core::expr::{Expr, Kind};
use crate::core::expr_cost::ExprCost;

/// A postfix formula: opcodes in the order of `Kind` (0 Constant, 1 Variable, 2 Add, 3 Mul, 4 And, 5 Or, 6 Xor, 7 Not,
/// 8 Neg) and, for each, its operand (0 for opcodes 2 to 8).
#[derive(Clone, Debug, Default, PartialEq, Eq)]
pub struct Formula {
    pub ops: Vec<u8>,
    pub operands: Vec<u64>,
}

impl Formula {
    pub fn push(&mut self, op: u8, operand: u64) {
        self.ops.push(op);
        self.operands.push(operand);
    }

    /// The tokens from left to right.
    pub fn tokens(&self) -> impl Iterator<Item = (u8, u64)> + '_ {
        self.ops.iter().copied().zip(self.operands.iter().copied())
    }
}

/// Weighted size, nonlinear products, maximal depth.
pub type Cost = [u32; 3];

/// `Evaluator::from_expr`, then `eval`.
pub fn eval(formula: &Formula, width: u32, words: &[u64]) -> u64 {
    Evaluator::from_expr(&expr_of(formula), width).eval(words)
}

/// `Evaluator::from_expr` once, then `eval` for each point.
pub fn evals<'a>(
    formula: &Formula,
    width: u32,
    points: impl Iterator<Item = &'a [u64]>,
) -> Vec<u64> {
    let evaluator = Evaluator::from_expr(&expr_of(formula), width);
    points.map(|words| evaluator.eval(words)).collect()
}

/// `compute_cost` of expr_cost.rs.
pub fn compute_cost(formula: &Formula) -> Cost {
    cost_numbers(crate::core::expr_cost::compute_cost(&expr_of(formula)).cost)
}

/// `is_better` of expr_cost.rs.
pub fn is_better(cost: Cost, other: Cost) -> bool {
    let [cost, other] = [cost, other].map(|[size, products, depth]| ExprCost {
        weighted_size: size,
        nonlinear_mul_count: products,
        max_depth: depth,
    });
    crate::core::expr_cost::is_better(&cost, &other)
}

pub(super) fn cost_numbers(cost: ExprCost) -> Cost {
    [cost.weighted_size, cost.nonlinear_mul_count, cost.max_depth]
}

/// The tree of a well-formed formula.
pub fn expr_of(formula: &Formula) -> Arc<Expr> {
    let mut stack = Vec::new();
    for (op, operand) in formula.tokens() {
        let expr = match op {
            0 => Expr::constant(operand),
            1 => Expr::variable(u32::try_from(operand).expect("a variable's number is small")),
            7 => Expr::not(pop(&mut stack)),
            8 => Expr::neg(pop(&mut stack)),
            _ => {
                let rhs = pop(&mut stack);
                let lhs = pop(&mut stack);
                gate_tree(op, lhs, rhs)
            }
        };
        stack.push(expr);
    }
    let whole = pop(&mut stack);
    assert!(stack.is_empty(), "a formula leaves one value");
    whole
}

fn pop(stack: &mut Vec<Arc<Expr>>) -> Arc<Expr> {
    stack.pop().expect("a formula's operands come first")
}

fn gate_tree(op: u8, lhs: Arc<Expr>, rhs: Arc<Expr>) -> Arc<Expr> {
    match op {
        2 => Expr::add(lhs, rhs),
        3 => Expr::mul(lhs, rhs),
        4 => Expr::and(lhs, rhs),
        5 => Expr::or(lhs, rhs),
        6 => Expr::xor(lhs, rhs),
        _ => panic!("opcode {op}"),
    }
}

/// The formula of a tree.
pub(super) fn formula_of(expr: &Expr) -> Formula {
    let mut formula = Formula::default();
    write_out(expr, &mut formula);
    formula
}

fn write_out(expr: &Expr, formula: &mut Formula) {
    for child in expr.children.iter() {
        write_out(child, formula);
    }
    let (op, operand) = match expr.kind {
        Kind::Constant(word) => (0, word),
        Kind::Variable(number) => (1, u64::from(number)),
        Kind::Add => (2, 0),
        Kind::Mul => (3, 0),
        Kind::And => (4, 0),
        Kind::Or => (5, 0),
        Kind::Xor => (6, 0),
        Kind::Not => (7, 0),
        Kind::Neg => (8, 0),
        ref other => panic!("no token for {other:?}"),
    };
    formula.push(op, operand);
}

//! Formulas: value, cost and refusals, over the tokens themselves.

use crate::access::{Cost, Formula};

use super::refusals::{NONE, REFUSED_FORMULA, REFUSED_LENGTH, REFUSED_VARS, REFUSED_WIDTH};

pub const CONSTANT: u8 = 0;
pub const VARIABLE: u8 = 1;
pub const ADD: u8 = 2;
pub const MUL: u8 = 3;
pub const AND: u8 = 4;
pub const OR: u8 = 5;
pub const XOR: u8 = 6;
pub const NOT: u8 = 7;
pub const NEG: u8 = 8;

pub const GATES: [u8; 5] = [ADD, MUL, AND, OR, XOR];
/// The opcodes of the gates by their numbers.
pub const GATE_OPS: [u8; 5] = [AND, OR, XOR, ADD, MUL];
pub const TOKENS_MAX: usize = 64;
pub const VARS_MAX: u64 = 6;

/// The value of a well-formed formula, by a stack.
pub fn value(formula: &Formula, width: u32, words: &[u64]) -> u64 {
    let modulus = 1u128 << width;
    let mut stack: Vec<u128> = Vec::new();
    for (op, operand) in formula.tokens() {
        let word = match op {
            CONSTANT => u128::from(operand),
            VARIABLE => u128::from(words[operand as usize]),
            NOT => modulus - 1 - pop(&mut stack),
            NEG => modulus - pop(&mut stack),
            gate => {
                let right = pop(&mut stack);
                gate_word(gate, pop(&mut stack), right)
            }
        };
        stack.push(word % modulus);
    }
    last(stack) as u64
}

/// A gate's word before it is reduced.
pub(super) fn gate_word(gate: u8, left: u128, right: u128) -> u128 {
    match gate {
        ADD => left + right,
        MUL => left * right,
        AND => left & right,
        OR => left | right,
        XOR => left ^ right,
        _ => panic!("opcode {gate}"),
    }
}

/// A cost on the stack, and whether a variable is under it.
struct Costed {
    cost: Cost,
    varies: bool,
}

/// The cost of a well-formed formula, by a stack.
pub fn cost(formula: &Formula) -> Cost {
    let mut stack: Vec<Costed> = Vec::new();
    for (op, _) in formula.tokens() {
        let costed = match op {
            CONSTANT | VARIABLE => Costed {
                cost: [1, 0, 1],
                varies: op == VARIABLE,
            },
            NOT | NEG => under_unary(pop(&mut stack)),
            gate => {
                let right = pop(&mut stack);
                under_gate(gate, pop(&mut stack), right)
            }
        };
        stack.push(costed);
    }
    last(stack).cost
}

fn under_unary(below: Costed) -> Costed {
    let [size, products, depth] = below.cost;
    Costed {
        cost: [size + 1, products, depth + 1],
        varies: below.varies,
    }
}

fn under_gate(gate: u8, left: Costed, right: Costed) -> Costed {
    let nonlinear = gate == MUL && left.varies && right.varies;
    let (size, products) = if nonlinear { (3, 1) } else { (1, 0) };
    Costed {
        cost: [
            left.cost[0] + right.cost[0] + size,
            left.cost[1] + right.cost[1] + products,
            left.cost[2].max(right.cost[2]) + 1,
        ],
        varies: left.varies || right.varies,
    }
}

fn pop<T>(stack: &mut Vec<T>) -> T {
    stack.pop().expect("a formula's operands come first")
}

fn last<T>(mut stack: Vec<T>) -> T {
    let last = pop(&mut stack);
    assert!(stack.is_empty(), "a formula leaves one value");
    last
}

/// Two formulas under a gate.
pub fn joined(left: &Formula, right: &Formula, gate: u8) -> Formula {
    let mut formula = left.clone();
    formula.ops.extend(&right.ops);
    formula.operands.extend(&right.operands);
    formula.push(gate, 0);
    formula
}

/// What is handed to the calls that take a formula, well-formed or not.
#[derive(Clone)]
pub struct Handed {
    pub num_vars: u64,
    pub width: u64,
    pub count: u64,
    pub ops: Vec<u64>,
    pub operands: Vec<u64>,
    pub words: Vec<u64>,
}

impl Handed {
    /// The table for evaluating: 1, 2, 4, 6, the least that applies.
    pub fn eval_refusal(&self) -> u64 {
        if !self.is_num_vars_good() {
            REFUSED_VARS
        } else if !(1..=64).contains(&self.width) {
            REFUSED_WIDTH
        } else if self.is_token_array_short() || (self.words.len() as u64) < self.num_vars {
            REFUSED_LENGTH
        } else if !self.is_formula() {
            REFUSED_FORMULA
        } else {
            NONE
        }
    }

    /// The table for the cost: 1, 4, 6, the least that applies.
    pub fn cost_refusal(&self) -> u64 {
        if !self.is_num_vars_good() {
            REFUSED_VARS
        } else if self.is_token_array_short() {
            REFUSED_LENGTH
        } else if !self.is_formula() {
            REFUSED_FORMULA
        } else {
            NONE
        }
    }

    fn is_num_vars_good(&self) -> bool {
        (1..=VARS_MAX).contains(&self.num_vars)
    }

    fn is_token_array_short(&self) -> bool {
        (self.ops.len() as u64) < self.count || (self.operands.len() as u64) < self.count
    }

    /// The formula test, for arrays that are long enough.
    fn is_formula(&self) -> bool {
        are_formula(self.num_vars, self.count, &self.ops, &self.operands)
    }
}

/// Whether so many tokens of arrays that are long enough are one to 64 that pass the formula test.
pub(super) fn are_formula(num_vars: u64, count: u64, ops: &[u64], operands: &[u64]) -> bool {
    if count == 0 || count > TOKENS_MAX as u64 {
        return false;
    }
    let count = count as usize;
    is_formula(num_vars, &ops[..count], &operands[..count])
}

/// The formula test of tokens that are neither none nor too many.
pub(super) fn is_formula(num_vars: u64, ops: &[u64], operands: &[u64]) -> bool {
    let mut tokens = ops.iter().zip(operands);
    let tokens_good = tokens.all(|(&op, &operand)| is_token(num_vars, op, operand));
    let shape = leaves_one(ops);
    assert_eq!(shape, is_tree_from_the_end(ops));
    tokens_good && shape
}

fn is_token(num_vars: u64, op: u64, operand: u64) -> bool {
    match op {
        0 => true,
        1 => operand < num_vars,
        2..=8 => operand == 0,
        _ => false,
    }
}

/// How many values a token takes.
pub(super) fn arity(op: u64) -> usize {
    match op {
        0 | 1 => 0,
        7 | 8 => 1,
        _ => 2,
    }
}

/// From left to right: every operand there, one value left.
fn leaves_one(ops: &[u64]) -> bool {
    let mut values = 0;
    for &op in ops {
        if values < arity(op) {
            return false;
        }
        values = values - arity(op) + 1;
    }
    values == 1
}

/// From right to left: the last token asks for its operands, and the first token fills the last place asked for.
fn is_tree_from_the_end(ops: &[u64]) -> bool {
    let mut wanted = 1;
    for &op in ops.iter().rev() {
        if wanted == 0 {
            return false;
        }
        wanted = wanted - 1 + arity(op);
    }
    wanted == 0
}

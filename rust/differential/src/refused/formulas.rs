//! Values, costs and rows of damaged formulas. Where the damage leaves a formula, the calls answer.

use oracle::inputs::Inputs;
use oracle::spec::formulas::Handed;
use oracle::spec::refusals::{NONE, REFUSED_FORMULA, REFUSED_LENGTH, REFUSED_VARS, REFUSED_WIDTH};
use simjaldek::lent::{self, Tokens};
use simjaldek::Token;

use super::{claimed, cut, damages, num_vars, number, widths};
use crate::buffers::{garbage_u64, longer};
use crate::formulas::random_formula;
use crate::report::{Kind, Report};

/// The three calls that take a formula.
pub fn compare(inputs: &mut Inputs, report: &mut Report) {
    let (good, width) = widths(inputs);
    let num_vars = num_vars(inputs);
    let handed = damaged(inputs, num_vars, good, width);
    let ops: Vec<u8> = handed.ops.iter().map(|&op| op as u8).collect();
    let tokens = Tokens {
        count: handed.count as usize,
        ops: &ops,
        operands: &handed.operands,
    };
    let input = (num_vars, width, tokens, &handed.words);
    let value = number(lent::evaluate(num_vars, width, tokens, &handed.words));
    report.refusal(
        Kind::RefusedValue,
        &input,
        (value, true),
        handed.eval_refusal(),
    );
    let cost = number(lent::compute_cost(num_vars, tokens));
    report.refusal(
        Kind::RefusedCost,
        &input,
        (cost, true),
        handed.cost_refusal(),
    );
    if [NONE, REFUSED_FORMULA].contains(&handed.cost_refusal()) {
        let is = handed.cost_refusal() == NONE;
        let ours = lent::is_formula(num_vars, tokens);
        report.compare(Kind::FormulaTest, &input, &ours, &is);
    }
    let at = inputs.below(tokens.ops.len() as u64 + 2) as usize;
    let ours = lent::token_at(tokens.ops, tokens.operands, at);
    let theirs = token_at(tokens, at);
    report.compare(Kind::Token, &(input, at), &ours, &theirs);
    let mut points = garbage_u64(inputs, 96);
    cut(inputs, &mut points);
    let row = number(lent::probe_row(num_vars, width, &points, tokens));
    let expected = row_refusal(&handed, points.len());
    let input = (input, points.len());
    report.refusal(Kind::RefusedFormulaRow, &input, (row, true), expected);
}

/// The token at a place; what is none has opcode 255 and operand 0.
fn token_at(tokens: Tokens<'_>, at: usize) -> Token {
    let (op, operand) = (tokens.ops.get(at), tokens.operands.get(at));
    match op.zip(operand) {
        Some((0, &word)) => Token::Constant(word),
        Some((1, &number)) => Token::Variable(number),
        Some((2, 0)) => Token::Add,
        Some((3, 0)) => Token::Mul,
        Some((4, 0)) => Token::And,
        Some((5, 0)) => Token::Or,
        Some((6, 0)) => Token::Xor,
        Some((7, 0)) => Token::Not,
        Some((8, 0)) => Token::Neg,
        _ => Token::Bad(255, 0),
    }
}

/// The table for the row of a formula: 1, 2, 4, 6. The points stand in the words' place.
fn row_refusal(handed: &Handed, points: usize) -> u64 {
    let other = handed.cost_refusal();
    if other == REFUSED_VARS {
        REFUSED_VARS
    } else if !(1..=64).contains(&handed.width) {
        REFUSED_WIDTH
    } else if points < 96 {
        REFUSED_LENGTH
    } else {
        other
    }
}

/// A formula over the variables, damaged in none, one or several ways.
pub fn damaged(inputs: &mut Inputs, num_vars: u32, good: u32, width: u32) -> Handed {
    let variables = u64::from(num_vars.clamp(1, 6));
    let (formula, words) = random_formula(inputs, variables, good);
    let ops: Vec<u64> = formula.ops.iter().copied().map(u64::from).collect();
    let count = ops.len();
    let mut handed = Handed {
        num_vars: num_vars.into(),
        width: width.into(),
        count: claimed(inputs, count) as u64,
        ops: longer(inputs, &ops).iter().map(|op| op % 256).collect(),
        operands: longer(inputs, &formula.operands),
        words: longer(inputs, &words),
    };
    if inputs.below(2) == NONE {
        damage_token(inputs, &mut handed, count);
    }
    if damages(inputs) {
        handed.count = inputs.below(count as u64 + 1);
    }
    cut(inputs, &mut handed.ops);
    cut(inputs, &mut handed.operands);
    cut(inputs, &mut handed.words);
    handed
}

/// Another opcode, another operand, a token that is left out, or two that change places.
fn damage_token(inputs: &mut Inputs, handed: &mut Handed, count: usize) {
    let [i, j] = [0; 2].map(|_| inputs.below(count as u64) as usize);
    let any = inputs.word() % 256;
    match inputs.below(5) {
        0 => handed.ops[i] = inputs.below(11),
        1 => handed.ops[i] = inputs.one_of(&[9, 255, any]),
        2 => handed.operands[i] = inputs.one_of(&[1, 5, 6, handed.num_vars, u64::MAX]),
        3 => {
            handed.ops.swap(i, j);
            handed.operands.swap(i, j);
        }
        _ => {
            handed.ops.remove(i);
            handed.operands.remove(i);
            handed.count = handed.count.saturating_sub(1);
        }
    }
}

//! Formulas of given sizes and shapes, and words for them.

use crate::access::Formula;
use crate::inputs::Inputs;
use crate::spec::formulas::{CONSTANT, GATES, NEG, NOT, VARIABLE};
use crate::spec::load::{self, Choices};

/// Where a gate's operands get their tokens.
#[derive(Clone, Copy)]
pub enum Lean {
    /// All but one to the left operand.
    Left,
    /// All but one to the right operand.
    Right,
    /// Any split.
    Any,
}

/// Makes formulas over so many variables, with constants for a width.
pub struct Maker<'a> {
    pub inputs: &'a mut Inputs,
    pub num_vars: u64,
    pub width: u32,
}

impl Maker<'_> {
    /// A well-formed formula of exactly `count` tokens.
    pub fn formula(&mut self, count: usize, lean: Lean) -> Formula {
        let mut formula = Formula::default();
        self.grow(&mut formula, count, lean);
        formula
    }

    /// A formula of the test load: 1 to `limit` tokens, constants below 2^width.
    pub fn drawn(&mut self, limit: u64) -> Formula {
        let choices = Choices {
            num_vars: self.num_vars,
            width: self.width,
            limit,
        };
        load::draw(self.inputs.word(), choices).0
    }

    fn grow(&mut self, formula: &mut Formula, count: usize, lean: Lean) {
        if count == 1 {
            self.leaf(formula);
        } else if count == 2 || self.inputs.below(6) == 0 {
            self.grow(formula, count - 1, lean);
            formula.push(self.inputs.one_of(&[NOT, NEG]), 0);
        } else {
            let left = self.left_count(count, lean);
            self.grow(formula, left, lean);
            self.grow(formula, count - 1 - left, lean);
            formula.push(self.inputs.one_of(&GATES), 0);
        }
    }

    fn left_count(&mut self, count: usize, lean: Lean) -> usize {
        match lean {
            Lean::Left => count - 2,
            Lean::Right => 1,
            Lean::Any => 1 + self.inputs.below(count as u64 - 2) as usize,
        }
    }

    /// A variable, or one time in four a constant.
    pub fn leaf(&mut self, formula: &mut Formula) {
        if self.inputs.below(4) == 0 {
            let word = self.word();
            formula.push(CONSTANT, word);
        } else {
            formula.push(VARIABLE, self.inputs.below(self.num_vars));
        }
    }

    /// A word for the width: a corner, any below 2^width, or any at all.
    pub fn word(&mut self) -> u64 {
        match self.inputs.below(8) {
            0..=2 => self.inputs.one_of(&corners(self.width)),
            3..=5 => self.inputs.word_of_width(self.width),
            6 => beyond(self.width),
            _ => self.inputs.word(),
        }
    }

    /// An input word for each variable.
    pub fn words(&mut self) -> Vec<u64> {
        (0..self.num_vars).map(|_| self.word()).collect()
    }
}

/// 0, 1, 2^(width - 1) and 2^width - 1.
pub fn corners(width: u32) -> [u64; 4] {
    [0, 1, 1 << (width - 1), u64::MAX >> (64 - width)]
}

/// The least word that is not below 2^width, or the largest of all.
fn beyond(width: u32) -> u64 {
    1u64.checked_shl(width).unwrap_or(u64::MAX)
}

/// A leaf under `ops.len()` unary tokens.
pub fn unary_chain(leaf: (u8, u64), ops: &[u8]) -> Formula {
    let mut formula = Formula::default();
    formula.push(leaf.0, leaf.1);
    for &op in ops {
        formula.push(op, 0);
    }
    formula
}

/// ((leaf gate leaf) gate leaf) and so on: `gates.len() + 1` leaves, a stack of two.
pub fn left_chain(leaves: &[(u8, u64)], gates: &[u8]) -> Formula {
    let mut formula = Formula::default();
    for (place, &(op, operand)) in leaves.iter().enumerate() {
        formula.push(op, operand);
        if place > 0 {
            formula.push(gates[place - 1], 0);
        }
    }
    formula
}

/// All leaves, then all gates: a stack of `gates.len() + 1`.
pub fn right_chain(leaves: &[(u8, u64)], gates: &[u8]) -> Formula {
    let mut formula = Formula::default();
    for &(op, operand) in leaves {
        formula.push(op, operand);
    }
    for &gate in gates {
        formula.push(gate, 0);
    }
    formula
}

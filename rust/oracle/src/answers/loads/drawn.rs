//! Lines of kind 24 that are answered.

use super::{line, DRAWN};
use crate::access::{self, Formula};
use crate::answers::data_file::DataFile;
use crate::inputs::Inputs;
use crate::spec::formulas::{self as spec, TOKENS_MAX, VARS_MAX};
use crate::spec::lent::DrawFormula;
use crate::spec::load::{draw, Choices};
use crate::spec::refusals::NONE;

const WIDTHS: [u64; 4] = [1, 8, 63, 64];
const LIMITS: [u64; 5] = [1, 2, 3, 7, 64];
/// What splitmix64 adds to its state.
const STEP: u64 = 0x9E37_79B9_7F4A_7C15;

pub fn lines(file: &mut DataFile) {
    let inputs = &mut Inputs::of_kind(DRAWN);
    by_hand(file);
    loads(file, inputs);
    every_choice(file, inputs);
    limits_and_widths(file, inputs);
    states(file);
}

/// Arrays as long as the limit.
pub fn exact(num_vars: u64, width: u64, limit: u64) -> DrawFormula {
    DrawFormula {
        num_vars,
        width,
        limit,
        ops: limit,
        operands: limit,
    }
}

/// Arrays as long, or each longer by itself.
fn longer(inputs: &mut Inputs, handed: DrawFormula) -> DrawFormula {
    let mut more = || inputs.one_of(&[0, 0, 1, 2, 16]);
    DrawFormula {
        ops: handed.ops + more(),
        operands: handed.operands + more(),
        ..handed
    }
}

/// The Rust takes it for a formula: its value and cost are the specification's.
pub fn check(formula: &Formula, handed: &DrawFormula) {
    let words: Vec<u64> = (0..handed.num_vars).map(|i| i.wrapping_mul(STEP)).collect();
    let width = handed.width as u32;
    let value = access::eval(formula, width, &words);
    assert_eq!(value, spec::value(formula, width, &words));
    assert_eq!(access::compute_cost(formula), spec::cost(formula));
}

/// splitmix64's published words from 1234567 are odd up to the fourth: length 2, the second of two leaves, the only variable, the second
/// of Not and Neg.
fn by_hand(file: &mut DataFile) {
    let state = 1_234_567;
    let choices = Choices {
        num_vars: 1,
        width: 8,
        limit: 2,
    };
    let (formula, _) = draw(state, choices);
    assert_eq!((formula.ops, formula.operands), (vec![1, 8], vec![0, 0]));
    line(file, &exact(1, 8, 2), state);
}

/// The first formulas of some loads.
fn loads(file: &mut DataFile, inputs: &mut Inputs) {
    for (seed, choices, count) in [
        (1, exact(2, 32, 7), 40),
        (7, exact(6, 64, 64), 12),
        (7, exact(1, 1, 1), 8),
        (8, exact(3, 8, 2), 8),
    ] {
        let mut state = seed;
        for _ in 0..count {
            state = line(file, &longer(inputs, choices), state);
        }
    }
}

/// Each variable count at each of the widths and limits, from any state.
fn every_choice(file: &mut DataFile, inputs: &mut Inputs) {
    for num_vars in 1..=VARS_MAX {
        for width in WIDTHS {
            for limit in LIMITS {
                let handed = longer(inputs, exact(num_vars, width, limit));
                line(file, &handed, inputs.word());
            }
        }
    }
}

/// Each limit with the length that is the limit or just below it, and each width.
fn limits_and_widths(file: &mut DataFile, inputs: &mut Inputs) {
    for limit in 1..=TOKENS_MAX as u64 {
        let handed = exact(1 + inputs.below(VARS_MAX), 1 + inputs.below(64), limit);
        assert_eq!(handed.refusal(), NONE);
        let state = loop {
            let state = inputs.word();
            let length = 1 + access::splitmix64(state).1 % limit;
            if limit - length < 2 {
                break state;
            }
        };
        line(file, &longer(inputs, handed), state);
    }
    for width in 1..=64 {
        let handed = exact(1 + inputs.below(VARS_MAX), width, 5 + inputs.below(5));
        line(file, &longer(inputs, handed), inputs.word());
    }
}

/// 0, 2^64 - 1 and their neighbours, and states that a step leads there.
fn states(file: &mut DataFile) {
    let zero = 0u64;
    for state in [zero, 1, u64::MAX, 1 << 63, (1 << 32) - 1] {
        for state in [state, state.wrapping_sub(STEP)] {
            line(file, &exact(4, 64, 9), state);
        }
    }
}

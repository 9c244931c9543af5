//! The test load beside the plain statement of its draws: places beyond the tokens too, and the state handed on. What is drawn is evaluated
//! and costed by both sides.

use oracle::access;
use oracle::inputs::Inputs;
use oracle::spec::load::{self, Choices};
use simjaldek::lent::{self, Tokens};
use simjaldek::{Cost, Refusal};

use crate::any_width;
use crate::buffers::{extra, garbage_u64, garbage_u8};
use crate::report::{Kind, Report};

const LIMITS: [u64; 5] = [1, 2, 3, 7, 64];
const WIDTHS: [u32; 4] = [1, 8, 63, 64];
/// Formulas in a row, the state handed on: in a round among others, and in one of loads alone.
const FEW: usize = 2;
const ROW: usize = 8;
/// The formulas of a load.
const LOAD: u64 = 10_000;

/// A few formulas of each limit.
pub fn compare(inputs: &mut Inputs, report: &mut Report) {
    let mut state = first_state(inputs);
    for limit in LIMITS {
        let choices = any_choices(inputs, limit);
        state = compare_row(inputs, report, state, choices, FEW);
    }
}

/// Formulas of all limits, variable counts and widths, the state handed on.
pub fn compare_all(inputs: &mut Inputs, report: &mut Report) {
    let mut state = first_state(inputs);
    for limit in LIMITS {
        for num_vars in 1..=6 {
            for width in WIDTHS {
                let choices = Choices {
                    num_vars,
                    width,
                    limit,
                };
                state = compare_row(inputs, report, state, choices, ROW);
            }
        }
    }
}

/// So many formulas in a row. The state after them.
fn compare_row(
    inputs: &mut Inputs,
    report: &mut Report,
    mut state: u64,
    choices: Choices,
    count: usize,
) -> u64 {
    for _ in 0..count {
        let [ours, theirs] = draw(inputs, state, choices);
        report.compare(Kind::DrawnFormula, &(state, choices), &ours, &theirs);
        report.reach(
            "drawn: as many tokens as the limit",
            theirs.is_longest(choices),
        );
        report.reach("drawn: 64 tokens", theirs.count == 64);
        state = theirs.state;
    }
    state
}

/// A load, up to the first formula that differs.
pub fn compare_load(inputs: &mut Inputs, report: &mut Report) {
    let seed = first_state(inputs);
    let limit = inputs.one_of(&LIMITS);
    let choices = any_choices(inputs, limit);
    let mut state = seed;
    for place in 1..=LOAD {
        let [ours, theirs] = draw(inputs, state, choices);
        if place == LOAD || ours != theirs {
            let input = (seed, choices, place);
            report.compare(Kind::DrawnLoad, &input, &ours, &theirs);
            return;
        }
        state = ours.state;
    }
}

/// Any state, seldom one at the ends.
fn first_state(inputs: &mut Inputs) -> u64 {
    match inputs.below(16) {
        0 => inputs.one_of(&[0, 1, u64::MAX]),
        _ => inputs.word(),
    }
}

fn any_choices(inputs: &mut Inputs, limit: u64) -> Choices {
    let any = any_width(inputs);
    Choices {
        num_vars: 1 + inputs.below(6),
        width: inputs.one_of(&[1, 8, 63, 64, any]),
        limit,
    }
}

/// What a draw leaves, and what is said of the formula.
#[derive(Debug, PartialEq)]
struct Drawn {
    ops: Vec<u8>,
    operands: Vec<u64>,
    count: usize,
    state: u64,
    value: Result<u64, Refusal>,
    cost: Result<Cost, Refusal>,
}

impl Drawn {
    fn is_longest(&self, choices: Choices) -> bool {
        self.count as u64 == choices.limit
    }
}

/// One formula of ours and of theirs, over the same garbage.
fn draw(inputs: &mut Inputs, state: u64, choices: Choices) -> [Drawn; 2] {
    let [ops, operands] = [0; 2].map(|_| choices.limit as usize + extra(inputs));
    let (ops, operands) = (garbage_u8(inputs, ops), garbage_u64(inputs, operands));
    let words = garbage_u64(inputs, choices.num_vars as usize);
    let theirs = theirs(state, choices, (ops.clone(), operands.clone()), &words);
    [ours(state, choices, (ops, operands), &words), theirs]
}

fn ours(state: u64, choices: Choices, arrays: (Vec<u8>, Vec<u64>), words: &[u64]) -> Drawn {
    let (mut ops, mut operands) = arrays;
    let (num_vars, width) = (choices.num_vars as u32, choices.width);
    let limit = choices.limit as usize;
    let drawn = lent::draw_formula(state, num_vars, width, limit, &mut ops, &mut operands);
    let (count, state) = drawn.map_or((0, state), |drawn| (drawn.count, drawn.state));
    let tokens = Tokens {
        count,
        ops: &ops,
        operands: &operands,
    };
    let value = lent::evaluate(num_vars, width, tokens, words);
    let cost = lent::compute_cost(num_vars, tokens);
    Drawn {
        ops,
        operands,
        count,
        state,
        value,
        cost,
    }
}

fn theirs(state: u64, choices: Choices, arrays: (Vec<u8>, Vec<u64>), words: &[u64]) -> Drawn {
    let (mut ops, mut operands) = arrays;
    let (formula, state) = load::draw(state, choices);
    let count = formula.ops.len();
    ops[..count].copy_from_slice(&formula.ops);
    operands[..count].copy_from_slice(&formula.operands);
    let [size, products, depth] = access::compute_cost(&formula);
    Drawn {
        ops,
        operands,
        count,
        state,
        value: Ok(access::eval(&formula, choices.width, words)),
        cost: Ok(Cost {
            size,
            products,
            depth,
        }),
    }
}

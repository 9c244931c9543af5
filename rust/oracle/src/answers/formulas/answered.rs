//! Lines of kind 9: the Rust's values and costs, each held against the specification's.

use crate::access::{self, Cost, Formula};

use super::made::{left_chain, right_chain, unary_chain, Lean, Maker};
use super::ANSWERED;
use crate::answers::data_file::DataFile;
use crate::inputs::Inputs;
use crate::spec::formulas::{self as spec, CONSTANT, GATES, MUL, NEG, NOT, TOKENS_MAX, VARIABLE};

const WIDTHS: std::ops::RangeInclusive<u32> = 1..=64;
/// Widths of the chains.
const CHAIN_WIDTHS: [u32; 4] = [3, 8, 33, 64];
const CHAIN_LEAVES: usize = 32;
const RANDOM_FORMULAS: usize = 1920;
/// Half of the random formulas have at most so many tokens.
const SHORT_TOKENS: u64 = 12;

pub fn lines(file: &mut DataFile) {
    let inputs = &mut Inputs::of_kind(ANSWERED);
    sheet(file);
    leaves(file, inputs);
    single_gates(file, inputs);
    unary_chains(file, inputs);
    gate_chains(file, inputs);
    every_count(file, inputs);
    random(file, inputs);
}

/// One line. The Rust must say what the specification says.
fn line(file: &mut DataFile, formula: &Formula, width: u32, words: &[u64]) {
    let value = access::eval(formula, width, words);
    let cost = access::compute_cost(formula);
    assert_eq!(value, spec::value(formula, width, words));
    assert_eq!(cost, spec::cost(formula));
    let count = formula.ops.len();
    assert!((1..=TOKENS_MAX).contains(&count));
    let head = [words.len() as u64, u64::from(width), count as u64];
    let answer = [value, cost[0].into(), cost[1].into(), cost[2].into()];
    file.line(ANSWERED, &[&head, &token_numbers(formula), words, &answer]);
}

/// Each opcode, and the operand of a leaf.
fn token_numbers(formula: &Formula) -> Vec<u64> {
    let mut numbers = Vec::new();
    for (op, operand) in formula.tokens() {
        numbers.push(op.into());
        if op == CONSTANT || op == VARIABLE {
            numbers.push(operand);
        } else {
            assert_eq!(operand, 0);
        }
    }
    numbers
}

/// The sheet's P4.
fn sheet(file: &mut DataFile) {
    let v0 = (VARIABLE, 0);
    let cases: [(_, Cost); 2] = [(v0, [5, 1, 2]), ((CONSTANT, 3), [3, 0, 2])];
    for (first, cost) in cases {
        let formula = left_chain(&[first, v0], &[MUL]);
        assert_eq!(access::compute_cost(&formula), cost);
        line(file, &formula, 8, &[7]);
    }
}

/// A constant and a variable at every width, with words of 64 bits.
fn leaves(file: &mut DataFile, inputs: &mut Inputs) {
    for width in WIDTHS {
        let constant = unary_chain((CONSTANT, inputs.word()), &[]);
        line(file, &constant, width, &[inputs.word()]);
        let num_vars = 1 + inputs.below(spec::VARS_MAX);
        let words: Vec<u64> = (0..num_vars).map(|_| inputs.word()).collect();
        let last = unary_chain((VARIABLE, num_vars - 1), &[]);
        line(file, &last, width, &words);
    }
}

/// Each gate, Not and Neg at every width, on corner words and others.
fn single_gates(file: &mut DataFile, inputs: &mut Inputs) {
    for width in WIDTHS {
        for op in GATES {
            let words = word_pair(inputs, width);
            let formula = left_chain(&[(VARIABLE, 0), (VARIABLE, 1)], &[op]);
            line(file, &formula, width, &words);
        }
        for op in [NOT, NEG] {
            let [word, _] = word_pair(inputs, width);
            line(file, &unary_chain((VARIABLE, 0), &[op]), width, &[word]);
        }
    }
}

fn word_pair(inputs: &mut Inputs, width: u32) -> [u64; 2] {
    let mut maker = Maker {
        inputs,
        num_vars: 2,
        width,
    };
    std::array::from_fn(|_| maker.word())
}

/// 62 and 63 unary tokens over a leaf: all Not, all Neg, in turn, and any.
fn unary_chains(file: &mut DataFile, inputs: &mut Inputs) {
    for width in CHAIN_WIDTHS {
        for count in [TOKENS_MAX - 2, TOKENS_MAX - 1] {
            let in_turn: Vec<u8> = [NOT, NEG].into_iter().cycle().take(count).collect();
            let any: Vec<u8> = (0..count).map(|_| inputs.one_of(&[NOT, NEG])).collect();
            for ops in [vec![NOT; count], vec![NEG; count], in_turn, any] {
                let word = inputs.word_of_width(width);
                line(file, &unary_chain((VARIABLE, 0), &ops), width, &[word]);
                line(file, &unary_chain((CONSTANT, word), &ops), width, &[0]);
            }
        }
    }
}

/// 32 leaves and 31 gates: all alike and any, gates after each leaf and gates at the end, some under a unary token more.
fn gate_chains(file: &mut DataFile, inputs: &mut Inputs) {
    for width in CHAIN_WIDTHS {
        for gate in GATES {
            gate_chain(file, inputs, width, &[gate]);
        }
        gate_chain(file, inputs, width, &GATES);
    }
}

fn gate_chain(file: &mut DataFile, inputs: &mut Inputs, width: u32, choice: &[u8]) {
    let gates: Vec<u8> = (1..CHAIN_LEAVES).map(|_| inputs.one_of(choice)).collect();
    let alike = [(VARIABLE, 0); CHAIN_LEAVES];
    let mixed = mixed_leaves(inputs, width);
    let words: Vec<u64> = (0..4).map(|_| inputs.word() | 1).collect();
    line(file, &left_chain(&alike, &gates), width, &words[..1]);
    line(file, &right_chain(&mixed, &gates), width, &words);
    let mut longer = left_chain(&mixed, &gates);
    longer.push(inputs.one_of(&[NOT, NEG]), 0);
    line(file, &longer, width, &words);
}

/// Variables and odd constants (so that products do not soon end in 0), the first three constants.
fn mixed_leaves(inputs: &mut Inputs, width: u32) -> [(u8, u64); CHAIN_LEAVES] {
    std::array::from_fn(|place| {
        if place < 3 || inputs.below(4) == 0 {
            (CONSTANT, inputs.word_of_width(width) | 1)
        } else {
            (VARIABLE, inputs.below(4))
        }
    })
}

/// Every token count, leaning each way.
fn every_count(file: &mut DataFile, inputs: &mut Inputs) {
    for count in 1..=TOKENS_MAX {
        for lean in [Lean::Left, Lean::Right, Lean::Any] {
            let width = 1 + inputs.below(64) as u32;
            random_line(file, inputs, width, count, lean);
        }
    }
}

/// Formulas at all widths in turn: a short one, then one of any length.
fn random(file: &mut DataFile, inputs: &mut Inputs) {
    for turn in 0..RANDOM_FORMULAS / 2 {
        let width = 1 + turn as u32 % 64;
        let short = 1 + inputs.below(SHORT_TOKENS) as usize;
        let long = long_count(inputs);
        for count in [short, long] {
            let lean = inputs.one_of(&[Lean::Any, Lean::Any, Lean::Left, Lean::Right]);
            random_line(file, inputs, width, count, lean);
        }
    }
}

/// More tokens than a short formula has; one time in eight as many as there can be.
fn long_count(inputs: &mut Inputs) -> usize {
    if inputs.below(8) == 0 {
        return TOKENS_MAX;
    }
    (SHORT_TOKENS + 1 + inputs.below(TOKENS_MAX as u64 - SHORT_TOKENS)) as usize
}

fn random_line(file: &mut DataFile, inputs: &mut Inputs, width: u32, count: usize, lean: Lean) {
    let num_vars = 1 + inputs.below(spec::VARS_MAX);
    let mut maker = Maker {
        inputs,
        num_vars,
        width,
    };
    let formula = maker.formula(count, lean);
    let words = maker.words();
    line(file, &formula, width, &words);
}

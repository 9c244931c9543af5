//! Lines of kind 26 that are answered.

use super::{line, RULES};
use crate::access::Formula;
use crate::answers::data_file::DataFile;
use crate::inputs::Inputs;
use crate::made::formulas::{left_chain, right_chain, unary_chain};
use crate::made::rules;
use crate::spec::formulas::{ADD, AND, CONSTANT, MUL, NEG, NOT, VARIABLE, VARS_MAX, XOR};
use crate::spec::lent::RunRule;
use crate::spec::refusals::NONE;
use crate::spec::rule::Rule;

/// Records of a line, around multiples of sixteen.
const COUNTS: [usize; 14] = [16, 0, 33, 1, 64, 15, 31, 17, 80, 48, 32, 2, 47, 65];
/// Tokens of a formula.
const TOKENS: [usize; 12] = [1, 2, 3, 7, 10, 16, 17, 31, 33, 48, 63, 64];
/// The most words of a line's records.
const WORDS_MAX: usize = 256;
const V0: (u8, u64) = (VARIABLE, 0);
const V1: (u8, u64) = (VARIABLE, 1);

pub fn lines(file: &mut DataFile) {
    let inputs = &mut Inputs::of_kind(RULES);
    by_hand(file);
    windows(file, inputs);
    counts(file, inputs);
    tokens(file, inputs);
    states(file, inputs);
    above(file);
    cut(file, inputs);
}

/// Arrays as long as needed.
pub fn exact(rule: &Rule, n: usize) -> RunRule {
    RunRule {
        num_vars: rule.num_vars as u64,
        width: rule.width.into(),
        count: rule.formula.ops.len() as u64,
        ops: rule.formula.ops.iter().copied().map(u64::from).collect(),
        operands: rule.formula.operands.clone(),
        m: rule.m as u64,
        window: rule.window as u64,
        n: n as u64,
        records: (rule.num_vars * n) as u64,
        answers: n as u64,
    }
}

/// A line with arrays as long as needed, or each longer by itself. The state handed on.
fn longer(file: &mut DataFile, inputs: &mut Inputs, rule: &Rule, state: u64, run: &[u64]) -> u64 {
    let mut handed = exact(rule, run.len() / rule.num_vars);
    let mut records = run.to_vec();
    let more = |inputs: &mut Inputs| inputs.one_of(&[0, 0, 0, 1, 3]);
    for _ in 0..more(inputs) {
        handed.ops.push(inputs.below(256));
    }
    for _ in 0..more(inputs) {
        handed.operands.push(inputs.below(9));
    }
    for _ in 0..more(inputs) {
        records.push(inputs.below(9));
    }
    handed.records = records.len() as u64;
    handed.answers += more(inputs);
    assert_eq!(handed.refusal(), NONE);
    line(file, &handed, state, &records)
}

/// A rule of any formula of so many tokens.
fn any_rule(inputs: &mut Inputs, num_vars: usize, width: u32, tokens: usize) -> Rule {
    let window = 1 + inputs.below(64) as usize;
    Rule {
        formula: rules::formula(inputs, num_vars as u64, width, tokens),
        num_vars,
        width,
        m: 1 + inputs.below(window as u64) as usize,
        window,
    }
}

/// One to twelve tokens, few of them more often.
fn few_tokens(inputs: &mut Inputs) -> usize {
    let most = inputs.one_of(&[3, 5, 12]);
    1 + inputs.below(most) as usize
}

/// A line of any records, as many as asked for or as a line holds. The state handed on.
fn any_run(file: &mut DataFile, inputs: &mut Inputs, rule: &Rule, state: u64, n: usize) -> u64 {
    let records = rules::records(inputs, rule, n.min(WORDS_MAX / rule.num_vars));
    longer(file, inputs, rule, state, &records)
}

fn rule(formula: Formula, num_vars: usize, width: u32, m: usize, window: usize) -> Rule {
    Rule {
        formula,
        num_vars,
        width,
        m,
        window,
    }
}

/// Two of the last three; records before the first are no records of zeros; a difference's sign; a window that is full at last.
fn by_hand(file: &mut DataFile) {
    let v0 = unary_chain(V0, &[]);
    let not = unary_chain(V0, &[NOT]);
    let mut falls = right_chain(&[V0, V1], &[]);
    for (op, operand) in [(NEG, 0), (ADD, 0), (CONSTANT, 128), (AND, 0)] {
        falls.push(op, operand);
    }
    let always = unary_chain((CONSTANT, 1), &[]);
    let cases: [(Rule, u64, Vec<u64>, &str); 6] = [
        (
            rule(v0.clone(), 1, 8, 2, 3),
            0,
            vec![5, 0, 255, 256, 1, 0],
            "001010",
        ),
        (rule(v0.clone(), 1, 8, 2, 3), 0b011, vec![0, 1, 0], "110"),
        (rule(v0, 1, 8, 1, 1), u64::MAX, vec![0, 1, 0], "010"),
        (rule(not, 1, 8, 2, 2), 0, vec![0, 0, 255, 0, 512], "01001"),
        (
            rule(falls, 2, 8, 2, 2),
            0,
            vec![9, 8, 7, 9, 5, 7, 6, 5, 5, 6, 0, 5],
            "001001",
        ),
        (
            rule(always, 1, 1, 64, 64),
            u64::MAX >> 2,
            vec![0, 0, 0],
            "011",
        ),
    ];
    for (rule, state, records, answers) in cases {
        stated(file, &rule, state, &records, answers);
    }
}

/// A line whose answers are stated by hand.
fn stated(file: &mut DataFile, rule: &Rule, state: u64, records: &[u64], answers: &str) {
    let ran = rule.run(state, records);
    let digits: String = ran.answers.iter().map(u8::to_string).collect();
    assert_eq!(digits, answers);
    let handed = exact(rule, records.len() / rule.num_vars);
    line(file, &handed, state, records);
}

/// Each window with an M at one end of its range, every other one with any M too; each width.
fn windows(file: &mut DataFile, inputs: &mut Inputs) {
    let ends = (1..=64).map(|window| (window, if window % 4 < 2 { 1 } else { window }));
    let any = (2..=64).step_by(2);
    let any: Vec<(usize, usize)> = any
        .map(|window| (window, 1 + inputs.below(window as u64) as usize))
        .collect();
    for (turn, (window, m)) in ends.chain(any).enumerate() {
        let width = 1 + turn as u32 % 64;
        let num_vars = 1 + inputs.below(VARS_MAX).min(inputs.below(VARS_MAX)) as usize;
        let tokens = few_tokens(inputs);
        let rule = Rule {
            m,
            window,
            ..any_rule(inputs, num_vars, width, tokens)
        };
        let state = rules::state(inputs, &rule);
        any_run(file, inputs, &rule, state, COUNTS[turn % COUNTS.len()]);
    }
}

/// Each number of records, over one variable and over more.
fn counts(file: &mut DataFile, inputs: &mut Inputs) {
    for (turn, n) in COUNTS.into_iter().enumerate() {
        for num_vars in [1, 2 + turn % 5] {
            if num_vars * n > WORDS_MAX {
                continue;
            }
            let width = 1 + inputs.below(64) as u32;
            let tokens = few_tokens(inputs);
            let rule = any_rule(inputs, num_vars, width, tokens);
            let state = rules::state(inputs, &rule);
            any_run(file, inputs, &rule, state, n);
        }
    }
}

/// Formulas of several lengths, up to the longest.
fn tokens(file: &mut DataFile, inputs: &mut Inputs) {
    for count in TOKENS {
        let num_vars = 1 + inputs.below(4) as usize;
        let width = inputs.one_of(&[1, 8, 33, 64]);
        let rule = any_rule(inputs, num_vars, width, count);
        let n = 17 + inputs.below(18) as usize;
        any_run(file, inputs, &rule, 0, n);
    }
}

/// A single bit, the first that doesn't count or the last that does; and all but that one.
fn states(file: &mut DataFile, inputs: &mut Inputs) {
    for window in [2, 33, 64] {
        let edge = 1u64 << (window - 1);
        let formula = left_chain(&[V0, V1], &[XOR]);
        let one = rule(formula.clone(), 2, 16, 1, window);
        let all = rule(formula, 2, 16, window, window);
        let records = [6, 7, 8, 8, 1, 1];
        for state in [edge, edge >> 1] {
            longer(file, inputs, &one, state, &records[2..]);
        }
        for state in [!edge, !(edge >> 1)] {
            longer(file, inputs, &all, state, &records[..4]);
        }
    }
}

/// Values that are nonzero before they are reduced, and zero at the width; and close neighbours.
fn above(file: &mut DataFile) {
    let first = |num_vars, formula| rule(formula, num_vars, 8, 1, 1);
    for (rule, records, answers) in [
        (
            first(1, unary_chain(V0, &[])),
            vec![256, 255, 0xFF00, 257, 1 << 63, 0],
            "010100",
        ),
        (
            first(2, left_chain(&[V0, V1], &[ADD])),
            vec![255, 1, 255, 2, 256, 512, u64::MAX, 1],
            "0100",
        ),
        (
            first(1, left_chain(&[V0, V0], &[MUL])),
            vec![16, 15, 1 << 32, 272],
            "0100",
        ),
        (
            first(1, unary_chain(V0, &[NOT])),
            vec![255, 256, 511],
            "010",
        ),
        (first(1, unary_chain(V0, &[NEG])), vec![512, 1, 257], "011"),
        (
            first(1, unary_chain((CONSTANT, 256), &[])),
            vec![1, 1],
            "00",
        ),
        (
            first(2, left_chain(&[V0, V1], &[XOR])),
            vec![7, 0xABCD_0007, 7, 0xABCD_0006],
            "01",
        ),
    ] {
        stated(file, &rule, 0, &records, answers);
    }
}

/// Runs from the empty state: in parts, empty ones among them, and whole.
fn cut(file: &mut DataFile, inputs: &mut Inputs) {
    for (num_vars, width, parts) in [
        (1, 16, &[16, 0, 1, 15, 32][..]),
        (2, 8, &[1, 1, 17, 0, 0, 29]),
        (3, 32, &[33, 15, 16]),
    ] {
        let tokens = few_tokens(inputs);
        let rule = Rule {
            m: 5,
            window: 12,
            ..any_rule(inputs, num_vars, width, tokens)
        };
        let n = parts.iter().sum();
        let records = rules::records(inputs, &rule, n);
        let (mut state, mut rest) = (0, &records[..]);
        for part in parts {
            let (run, after) = rest.split_at(num_vars * part);
            state = longer(file, inputs, &rule, state, run);
            rest = after;
        }
        assert!(rest.is_empty());
        assert_eq!(longer(file, inputs, &rule, 0, &records), state);
    }
}

//! Closing logs of rules, ranks, windows, formulas and records that are good or not.

use oracle::inputs::Inputs;
use oracle::made::logs;
use oracle::spec::formulas::TOKENS_MAX;
use oracle::spec::lent::RunLog;
use oracle::spec::log::{Ranked, RULES_MAX};
use simjaldek::lent::{self, Records};

use super::formulas::damaged;
use super::rules::window;
use super::{claimed, cut, damages, length, num_vars, number, widths};
use crate::buffers::{garbage_u64, RuleBuffers};
use crate::logs::told;
use crate::report::{Kind, Report};

/// The most records of a call.
const RECORDS: u64 = 40;

/// One call, or its refusal. That a refused log comes back as it was the binding asserts in debug builds
/// (tests/small_run.rs).
pub fn log(inputs: &mut Inputs, report: &mut Report) {
    let (good, width) = widths(inputs);
    let num_vars = num_vars(inputs);
    let variables = num_vars.clamp(1, 6);
    let rules = rules(inputs, variables as usize, good);
    let log = logs::log(inputs, &rules[..rules.len().min(RULES_MAX)]);
    let mut buffers = RuleBuffers::new(inputs, &rules);
    damage(inputs, &mut buffers, rules.len(), variables, good);
    let count = rule_count(inputs, rules.len());
    let any = inputs.below(RECORDS);
    let n = inputs.one_of(&[any, any, 1]);
    let words = length(inputs, u64::from(variables) * n);
    let words = garbage_u64(inputs, words as usize);
    let records = Records {
        count: claimed(inputs, n as usize),
        words: &words,
    };
    let handed = handed(&buffers, count, records, num_vars, width);
    let ran = lent::run_log(num_vars, width, buffers.lend(count), told(&log), records);
    let input = (&handed, log);
    let refused = handed.refusal();
    report.refusal(Kind::RefusedLog, &input, (number(ran), true), refused);
}

/// Good rules: one to eight, now and then a ninth and a tenth with ranks that others have.
fn rules(inputs: &mut Inputs, num_vars: usize, width: u32) -> Vec<Ranked> {
    let count = 1 + inputs.below(RULES_MAX as u64) as usize;
    let mut rules = logs::rules(inputs, num_vars, width, count);
    if damages(inputs) {
        rules = logs::rules(inputs, num_vars, width, RULES_MAX);
        let more = 1 + inputs.below(2) as usize;
        rules.extend_from_within(..more);
    }
    rules
}

/// How many rules are claimed: all, none, or too many.
fn rule_count(inputs: &mut Inputs, count: usize) -> usize {
    match inputs.below(24) {
        0 => 0,
        // 64 times it is 128 modulo 2^64
        1 => (1 << 58) + 2,
        2 => claimed(inputs, count),
        _ => count,
    }
}

/// Damages none, one or several of: a rule's formula, its window, its rank, an array's length.
fn damage(inputs: &mut Inputs, buffers: &mut RuleBuffers, rules: usize, num_vars: u32, width: u32) {
    let mut rule = || {
        let any = inputs.below(rules as u64) as usize;
        inputs.one_of(&[any, rules - 1])
    };
    let [formula, windowed, ranked, other] = [(); 4].map(|()| rule());
    if inputs.below(3) == 0 {
        damage_formula(inputs, buffers, formula, num_vars, width);
    }
    if inputs.below(2) == 0 {
        let window = window(inputs);
        (buffers.ms[windowed], buffers.windows[windowed]) = (window.least, window.records);
    }
    if damages(inputs) {
        let same = buffers.ranks[other];
        buffers.ranks[ranked] = inputs.one_of(&[0, 9, same, same, 256 + same, u32::MAX]);
    }
    match inputs.below(20) {
        0 => cut(inputs, &mut buffers.ranks),
        1 => cut(inputs, &mut buffers.ms),
        2 => cut(inputs, &mut buffers.windows),
        3 => cut(inputs, &mut buffers.token_counts),
        4 => buffers.ops.truncate(TOKENS_MAX * rules - 1),
        5 => buffers.operands.truncate(TOKENS_MAX * rules - 1),
        _ => {}
    }
}

/// Puts a damaged formula to a rule's places, as much of it as they hold.
fn damage_formula(
    inputs: &mut Inputs,
    buffers: &mut RuleBuffers,
    rule: usize,
    num_vars: u32,
    width: u32,
) {
    let formula = damaged(inputs, num_vars, width, width);
    let from = TOKENS_MAX * rule;
    for (place, &op) in (from..from + TOKENS_MAX).zip(&formula.ops) {
        buffers.ops[place] = op as u8;
    }
    for (place, &operand) in (from..from + TOKENS_MAX).zip(&formula.operands) {
        buffers.operands[place] = operand;
    }
    buffers.token_counts[rule] = formula.count.try_into().unwrap_or(u32::MAX);
}

/// What is handed in, as numbers and lengths.
fn handed(
    buffers: &RuleBuffers,
    rules: usize,
    records: Records<'_>,
    num_vars: u32,
    width: u32,
) -> RunLog {
    let wide = |numbers: &[u32]| numbers.iter().copied().map(u64::from).collect();
    RunLog {
        num_vars: num_vars.into(),
        width: width.into(),
        rules: rules as u64,
        ranks: wide(&buffers.ranks),
        ms: wide(&buffers.ms),
        windows: wide(&buffers.windows),
        token_counts: wide(&buffers.token_counts),
        ops: buffers.ops.iter().copied().map(u64::from).collect(),
        operands: buffers.operands.clone(),
        n: records.count as u64,
        records: records.words.len() as u64,
    }
}

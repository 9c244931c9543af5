//! Rules over records beside the plain statement, which counts anew for each record over the originals' values: places beyond the answers
//! too, and the state handed on.

use oracle::access::evals;
use oracle::inputs::Inputs;
use oracle::made::rules;
use oracle::spec::formulas::TOKENS_MAX;
use oracle::spec::rule::{marks_of, Ran, Rule};
use simjaldek::lent::{self, Records, Tokens};
use simjaldek::{Formula, Refusal, Window, WINDOW_MAX};

use crate::any_width;
use crate::buffers::{extra, garbage_u8, longer};
use crate::report::{Kind, Report};

/// Calls of a round.
const CALLS: usize = 8;
/// Records of a call, around multiples of sixteen.
const COUNTS: [u64; 12] = [0, 1, 2, 15, 16, 17, 31, 32, 33, 48, 64, 80];
/// The most records of a run that is cut.
const RUN: u64 = 300;

/// A few calls of any rule, and a run.
pub fn compare(inputs: &mut Inputs, report: &mut Report) {
    for _ in 0..CALLS {
        let rule = any_rule(inputs);
        compare_call(inputs, report, &rule);
    }
    compare_run(inputs, report);
}

/// A call for every M and W.
pub fn compare_all(inputs: &mut Inputs, report: &mut Report) {
    for window in 1..=WINDOW_MAX as usize {
        for m in 1..=window {
            let rule = Rule {
                m,
                window,
                ..any_rule(inputs)
            };
            compare_call(inputs, report, &rule);
        }
    }
}

/// A rule of a formula of 1 to 64 tokens, short ones more often.
fn any_rule(inputs: &mut Inputs) -> Rule {
    let num_vars = 1 + inputs.below(6);
    let width = any_width(inputs);
    let most = inputs.one_of(&[3, 10, 10, TOKENS_MAX as u64]);
    let tokens = 1 + inputs.below(most) as usize;
    let window = 1 + inputs.below(WINDOW_MAX.into());
    Rule {
        formula: rules::formula(inputs, num_vars, width, tokens),
        num_vars: num_vars as usize,
        width,
        m: 1 + inputs.below(window) as usize,
        window: window as usize,
    }
}

/// One call from any state.
fn compare_call(inputs: &mut Inputs, report: &mut Report, rule: &Rule) {
    let (any, near) = (inputs.below(100), inputs.one_of(&COUNTS));
    let n = inputs.one_of(&[any, near]) as usize;
    let records = rules::records(inputs, rule, n);
    let state = rules::state(inputs, rule);
    let Ran {
        answers,
        state: next,
    } = rule.run(state, &records);
    let beyond = extra(inputs);
    let places = garbage_u8(inputs, n + beyond);
    let mut theirs = places.clone();
    theirs[..n].copy_from_slice(&answers);
    let ours = called(inputs, rule, state, &records, places);
    let input = (rule, state, &records);
    report.compare(Kind::RuleCall, &input, &ours, &(theirs, Ok(next)));
    reach(report, rule, state, &records);
}

/// Our call, in these places: what is left in them, and the state.
fn called(
    inputs: &mut Inputs,
    rule: &Rule,
    state: u64,
    records: &[u64],
    mut places: Vec<u8>,
) -> (Vec<u8>, Result<u64, Refusal>) {
    let mut ops = rule.formula.ops.clone();
    let beyond = extra(inputs);
    ops.extend(garbage_u8(inputs, beyond));
    let operands = longer(inputs, &rule.formula.operands);
    let tokens = Tokens {
        count: rule.formula.ops.len(),
        ops: &ops,
        operands: &operands,
    };
    let records = Records {
        count: records.len() / rule.num_vars,
        words: &longer(inputs, records),
    };
    let (num_vars, width) = (rule.num_vars as u32, rule.width);
    let window = window_of(rule);
    let ran = lent::run_rule(num_vars, width, tokens, window, state, records, &mut places);
    (places, ran)
}

fn window_of(rule: &Rule) -> Window {
    Window {
        least: rule.m as u32,
        records: rule.window as u32,
    }
}

/// What a run of calls should meet: each answer, and records with which a program that is off by one would show.
fn reach(report: &mut Report, rule: &Rule, state: u64, records: &[u64]) {
    let before = marks_of(state).len();
    let marks = [marks_of(state), rule.marks(records)].concat();
    let (m, window) = (rule.m, rule.window);
    // all 64 bits, where the width is less
    let values = evals(&rule.formula, 64, records.chunks(rule.num_vars));
    for (place, value) in (before..).zip(values) {
        let last = |many: usize| {
            let marks = marks[..=place].iter().rev().take(many);
            marks.filter(|&&mark| mark).count()
        };
        let own = window.min(place + 1 - before);
        let fires = last(window) >= m;
        report.reach_each(&[
            ("rule: it fires", fires),
            ("rule: it doesn't fire", !fires),
            ("rule: M of the last W", last(window) == m),
            ("rule: M - 1 of the last W", last(window) == m - 1),
            ("rule: it fires by 64 records", fires && window == 64),
            (
                "rule: the present record decides",
                fires && last(window) == m && marks[place],
            ),
            (
                "rule: the oldest record decides",
                fires && last(window - 1) < m,
            ),
            (
                "rule: one older would decide",
                !fires && last(window + 1) >= m,
            ),
            ("rule: one before the call decides", fires && last(own) < m),
            (
                "rule: nonzero from 2^w up alone",
                value != 0 && !marks[place],
            ),
        ]);
    }
}

/// A run that is cut.
pub fn compare_run(inputs: &mut Inputs, report: &mut Report) {
    let rule = any_rule(inputs);
    let n = inputs.below(RUN) as usize;
    let most = inputs.one_of(&[1, 4, 20, 100]);
    compare_cut(inputs, report, &rule, n, most);
}

/// A long run.
pub fn compare_long(inputs: &mut Inputs, report: &mut Report, n: usize) {
    let rule = any_rule(inputs);
    let most = inputs.one_of(&[100, 1000, n as u64]);
    compare_cut(inputs, report, &rule, n, most);
}

/// A run from the empty state in calls of at most so many records, some of none; by the binding's own rule.
fn compare_cut(inputs: &mut Inputs, report: &mut Report, rule: &Rule, n: usize, most: u64) {
    let records = rules::records(inputs, rule, n);
    let theirs = rule.run(0, &records);
    let formula = Formula::new(&rule.formula.ops, &rule.formula.operands);
    let ours = simjaldek::Rule::new(
        rule.num_vars as u32,
        rule.width,
        formula.expect("as many of each"),
        window_of(rule),
    );
    let ran = ours
        .map_err(Refusal::from)
        .and_then(|ours| fed(inputs, ours, &records, most));
    let input = (rule, &records, most);
    report.compare(Kind::RuleRun, &input, &ran, &Ok((theirs, true)));
}

/// What the binding's rule answers to records that come in parts, by any of its calls, and whether places beyond the answers stay.
fn fed(
    inputs: &mut Inputs,
    mut rule: simjaldek::Rule,
    records: &[u64],
    most: u64,
) -> Result<(Ran, bool), Refusal> {
    let num_vars = rule.num_vars() as usize;
    let (mut answers, mut kept, mut rest) = (Vec::new(), true, records);
    while !rest.is_empty() {
        let n = (inputs.below(most + 1) as usize).min(rest.len() / num_vars);
        let (part, after) = rest.split_at(num_vars * n);
        rest = after;
        match inputs.below(4) {
            0 => answers.extend(rule.feed(part)?.into_iter().map(u8::from)),
            1 if n == 1 => answers.push(rule.feed_one(part)?.into()),
            _ => {
                let beyond = extra(inputs);
                let mut places = garbage_u8(inputs, n + beyond);
                let before = places[n..].to_vec();
                kept &= rule.feed_into(part, &mut places)? == n && places[n..] == before;
                answers.extend(&places[..n]);
            }
        }
    }
    let state = rule.state();
    Ok((Ran { answers, state }, kept))
}

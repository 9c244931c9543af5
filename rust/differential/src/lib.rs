//! Differential runs: the originals of binsnake/cobra (`oracle`) and Simjaldek through its binding (`simjaldek`) get the same random
//! inputs, and every result is compared. Refusals, which the originals don't have, are compared with the plain statement of the
//! specification's table. Only the differences D1 and D2 of docs/DIFFERENCES.md may appear; `searches` and `products` recognise them by
//! rule. D3 can't: where gates get words from 2^w up, results are compared with the plain statement in place of the originals.
//!
//! A run is rounds 0, 1, 2 and so on until there are as many comparisons as asked for. A round's inputs come from the seed and the
//! round's number alone, so that a difference can be run again by both.

mod banks;
mod buffers;
pub mod differences;
mod formulas;
mod indexes;
mod listings;
mod loads;
mod logs;
mod products;
pub mod program;
mod refused;
pub mod report;
mod residuals;
mod rules;
mod searches;
mod words;

use oracle::inputs::Inputs;
use oracle::made::banks::BankInput;

use indexes::Setting;
use report::{Kind, Report};

/// The variable counts.
const VARIABLE_COUNTS: [u32; 6] = [1, 2, 3, 4, 5, 6];
/// The same where indexes follow, by how often they come: of six variables they cost the Rust a hundred times as much as of one.
const INDEX_VARIABLE_COUNTS: [u32; 24] = [
    1, 1, 1, 1, 1, 1, 1, 1, 1, 2, 2, 2, 2, 2, 2, 2, 3, 3, 3, 4, 4, 5, 6, 6,
];

/// Banks of a round; the last gets indexes and searches.
const BANKS: usize = 4;
/// Lent banks of each kind in a round of product or residual searches alone, and calls that may be refused.
const LENT_BANKS: usize = 8;
const SEARCH_REFUSALS: usize = 32;
/// Of so many rounds one has a load of ten thousand.
const ROUNDS_TO_A_LOAD: u64 = 64;
/// Calls of a round of loads alone that may be refused.
const LOAD_REFUSALS: usize = 32;
/// Of so many rounds one has a long run of a rule and of a log; records of such a run, in a round of rules or logs alone too.
const ROUNDS_TO_A_RUN: u64 = 64;
const LONG_RUN: usize = 100_000;
/// Runs of a round of rules alone that are cut, and calls that may be refused.
const RULE_RUNS: usize = 64;
const RULE_REFUSALS: usize = 256;
/// Calls of a round of closing logs alone, runs that are cut, and calls that may be refused.
const LOG_CALLS: usize = 512;
const LOG_RUNS: usize = 64;
const LOG_REFUSALS: usize = 512;

/// Rounds until at least `count` results are compared.
pub fn run(seed: u64, count: u64) -> Report {
    let mut report = Report::new(seed);
    let mut number = 0;
    while report.comparisons() < count {
        round(seed, number, &mut report);
        number += 1;
    }
    report
}

/// Rounds of product searches alone until at least `count` of them are compared with trying everything.
pub fn run_products(seed: u64, count: u64) -> Report {
    let mut report = Report::new(seed);
    let mut number = 0;
    while report.of_kind(Kind::ProductTrials) < count {
        product_round(seed, number, &mut report);
        number += 1;
    }
    report
}

/// Rounds of residual searches alone until at least `count` of them are compared with the originals.
pub fn run_residuals(seed: u64, count: u64) -> Report {
    let mut report = Report::new(seed);
    let mut number = 0;
    while report.of_kind(Kind::ResidualSearch) < count {
        residual_round(seed, number, &mut report);
        number += 1;
    }
    report
}

/// Rounds of loads alone until at least `count` drawn formulas are compared one by one.
pub fn run_loads(seed: u64, count: u64) -> Report {
    let mut report = Report::new(seed);
    let mut number = 0;
    while report.of_kind(Kind::DrawnFormula) < count {
        load_round(seed, number, &mut report);
        number += 1;
    }
    report
}

/// Rounds of rules alone until at least `count` of their calls are compared.
pub fn run_rules(seed: u64, count: u64) -> Report {
    let mut report = Report::new(seed);
    let mut number = 0;
    while report.of_kind(Kind::RuleCall) < count {
        rule_round(seed, number, &mut report);
        number += 1;
    }
    report
}

/// Rounds of closing logs alone until at least `count` of their calls are compared.
pub fn run_logs(seed: u64, count: u64) -> Report {
    let mut report = Report::new(seed);
    let mut number = 0;
    while report.of_kind(Kind::LogCall) < count {
        log_round(seed, number, &mut report);
        number += 1;
    }
    report
}

/// One round: banks, indexes and searches, formulas, loads, rules, logs, words, listings, and what is refused.
pub fn round(seed: u64, number: u64, report: &mut Report) {
    let inputs = &mut begin(seed, number, report);
    for _ in 1..BANKS {
        let input = bank_input(inputs, &VARIABLE_COUNTS);
        banks::compare(inputs, report, &input);
    }
    let input = bank_input(inputs, &INDEX_VARIABLE_COUNTS);
    let width = input.width;
    let atoms = banks::compare(inputs, report, &input);
    banks::compare_rows(inputs, report, &atoms, width);
    let setting = Setting::new(atoms, other_width(inputs, width));
    compare_setting(inputs, report, &setting);
    let setting = Setting::made(inputs);
    compare_setting(inputs, report, &setting);
    let made = searches::made(inputs);
    searches::compare(inputs, report, &made);
    residuals::compare_made(inputs, report);
    formulas::compare(inputs, report, &input.points, width);
    loads::compare(inputs, report);
    if number % ROUNDS_TO_A_LOAD == 0 {
        loads::compare_load(inputs, report);
    }
    rules::compare(inputs, report);
    if number % ROUNDS_TO_A_RUN == 0 {
        rules::compare_long(inputs, report, LONG_RUN);
        logs::compare_long(inputs, report, LONG_RUN);
    }
    logs::compare(inputs, report);
    words::compare(inputs, report);
    listings::compare(inputs, report);
    refused::compare(inputs, report);
}

/// A bank's indexes, and searches over the bank with one of them.
fn compare_setting(inputs: &mut Inputs, report: &mut Report, setting: &Setting) {
    let limit = setting.compare(inputs, report);
    let width = setting.search_width(inputs);
    searches::compare(inputs, report, &setting.lent(limit, width));
    residuals::compare(inputs, report, &setting.lent_rows(limit, width));
}

/// One round of product searches: over a built bank with an index of mostly its width, of two limits, at the index's width or a lesser
/// one, and over lent banks with and without an index of their own; and what they refuse.
pub fn product_round(seed: u64, number: u64, report: &mut Report) {
    let inputs = &mut begin(seed, number, report);
    let input = bank_input(inputs, &INDEX_VARIABLE_COUNTS);
    let width = other_width(inputs, input.width);
    let setting = Setting::new(input.bank(), width);
    for _ in 0..2 {
        let limit = setting.limit(inputs);
        let width = setting.search_width(inputs);
        searches::compare_products(inputs, report, &setting.lent(limit, width));
    }
    for _ in 0..LENT_BANKS {
        let setting = Setting::made(inputs);
        let limit = setting.limit(inputs);
        let width = setting.search_width(inputs);
        searches::compare_products(inputs, report, &setting.lent(limit, width));
        let made = searches::made(inputs);
        searches::compare_products(inputs, report, &made);
    }
    for _ in 0..SEARCH_REFUSALS {
        refused::product(inputs, report);
    }
}

/// One round of residual searches: over a built bank, every other time at a lesser width, with an index of two limits, and over lent
/// banks; and what they refuse.
pub fn residual_round(seed: u64, number: u64, report: &mut Report) {
    let inputs = &mut begin(seed, number, report);
    let input = bank_input(inputs, &INDEX_VARIABLE_COUNTS);
    let lesser = 1 + inputs.below(u64::from(input.width)) as u32;
    let width = inputs.one_of(&[lesser, input.width]);
    let setting = Setting::new(input.bank(), width);
    for _ in 0..2 {
        let limit = setting.limit(inputs);
        let width = setting.search_width(inputs);
        residuals::compare(inputs, report, &setting.lent_rows(limit, width));
    }
    for _ in 0..LENT_BANKS {
        residuals::compare_made(inputs, report);
    }
    for _ in 0..SEARCH_REFUSALS {
        refused::residual(inputs, report);
    }
}

/// One round of loads: from one state formulas of every limit, variable count and width in turn; a load of ten thousand; and what is
/// refused.
pub fn load_round(seed: u64, number: u64, report: &mut Report) {
    let inputs = &mut begin(seed, number, report);
    loads::compare_all(inputs, report);
    loads::compare_load(inputs, report);
    for _ in 0..LOAD_REFUSALS {
        refused::draw(inputs, report);
    }
}

/// One round of rules: a call for every M and W, runs that are cut, one of them long; and what is refused.
pub fn rule_round(seed: u64, number: u64, report: &mut Report) {
    let inputs = &mut begin(seed, number, report);
    rules::compare_all(inputs, report);
    for _ in 0..RULE_RUNS {
        rules::compare_run(inputs, report);
    }
    rules::compare_long(inputs, report, LONG_RUN);
    for _ in 0..RULE_REFUSALS {
        refused::rule(inputs, report);
    }
}

/// One round of closing logs: calls from any log, runs of opens and records that are cut, one of them long; and what is refused.
pub fn log_round(seed: u64, number: u64, report: &mut Report) {
    let inputs = &mut begin(seed, number, report);
    for _ in 0..LOG_CALLS {
        logs::compare_call(inputs, report);
    }
    for _ in 0..LOG_RUNS {
        logs::compare_run(inputs, report);
    }
    logs::compare_long(inputs, report, LONG_RUN);
    for _ in 0..LOG_REFUSALS {
        refused::log(inputs, report);
    }
}

/// The generator of a round.
fn begin(seed: u64, number: u64, report: &mut Report) -> Inputs {
    report.begin(number);
    let start = Inputs::from_seed(number).word();
    Inputs::from_seed(seed ^ start)
}

/// Points and target of any style.
fn bank_input(inputs: &mut Inputs, variable_counts: &[u32]) -> BankInput {
    let num_vars = inputs.one_of(variable_counts);
    let width = any_width(inputs);
    BankInput::of_any_style(inputs, num_vars, width)
}

/// A width from 1 to 64, the small ones more often.
fn any_width(inputs: &mut Inputs) -> u32 {
    let most = inputs.one_of(&[4, 12, 64, 64]);
    1 + inputs.below(most) as u32
}

/// The width of an index: mostly the bank's.
fn other_width(inputs: &mut Inputs, width: u32) -> u32 {
    match inputs.below(8) {
        0 | 1 => 1 + inputs.below(u64::from(width)) as u32,
        2 => any_width(inputs),
        _ => width,
    }
}

//! Closing logs beside the plain statement: any log opened and run over records; and runs of opens and records by the binding's own log,
//! beside the statement of each sounding by itself.

use oracle::inputs::Inputs;
use oracle::made::{logs, rules};
use oracle::spec::formulas::TOKENS_MAX;
use oracle::spec::log::{Log, Ranked};
use simjaldek::lent::{self, Records};
use simjaldek::{Close, Formula, LogState, RankedRule, Refusal, Window};

use crate::any_width;
use crate::buffers::{longer, RuleBuffers};
use crate::report::{Kind, Report};

/// Calls of a round.
const CALLS: usize = 8;
/// Records of a call, around multiples of sixteen and of 256.
const COUNTS: [u64; 13] = [0, 1, 2, 15, 16, 17, 33, 80, 255, 256, 257, 512, 513];
/// The most soundings of a run, parts of a sounding, and records of a part.
const SOUNDINGS: u64 = 4;
const PARTS: u64 = 8;
const PART: [u64; 4] = [1, 4, 20, 100];

/// A few calls of any rules, and a run.
pub fn compare(inputs: &mut Inputs, report: &mut Report) {
    for _ in 0..CALLS {
        compare_call(inputs, report);
    }
    compare_run(inputs, report);
}

/// One to eight rules, few of them more often; now and then one of a formula of up to 64 tokens.
fn any_rules(inputs: &mut Inputs) -> Vec<Ranked> {
    let num_vars = 1 + inputs.below(6) as usize;
    let width = any_width(inputs);
    let count = 1 + inputs.below(8).min(inputs.below(8)) as usize;
    let mut all = logs::rules(inputs, num_vars, width, count);
    if inputs.below(4) == 0 {
        let place = inputs.below(count as u64) as usize;
        let tokens = 1 + inputs.below(TOKENS_MAX as u64) as usize;
        all[place].rule.formula = rules::formula(inputs, num_vars as u64, width, tokens);
    }
    all
}

/// A log as the binding has it.
pub fn told(log: &Log) -> LogState {
    LogState {
        open: log.open,
        rank: log.rank,
        number: log.number,
        closed_at: log.closed_at,
        later: log.later,
        windows: log.windows,
    }
}

/// Any log, opened and after records.
pub fn compare_call(inputs: &mut Inputs, report: &mut Report) {
    let rules = any_rules(inputs);
    let log = logs::log(inputs, &rules);
    let (any, near) = (inputs.below(100), inputs.one_of(&COUNTS));
    // a record alone goes its own way
    let n = inputs.one_of(&[any, any, near, 1]) as usize;
    let records = logs::records(inputs, &rules, n);
    let theirs = (told(&Log::opened()), Ok(told(&log.run(&rules, &records))));
    let ours = (
        lent::open_log(told(&log)),
        called(inputs, &rules, &log, &records),
    );
    report.compare(Kind::LogCall, &(&rules, log, &records), &ours, &theirs);
    reach(report, &rules, log, &records);
}

/// Our call.
fn called(
    inputs: &mut Inputs,
    rules: &[Ranked],
    log: &Log,
    records: &[u64],
) -> Result<LogState, Refusal> {
    let buffers = RuleBuffers::new(inputs, rules);
    let rule = &rules[0].rule;
    let records = Records {
        count: records.len() / rule.num_vars,
        words: &longer(inputs, records),
    };
    let (num_vars, width) = (rule.num_vars as u32, rule.width);
    lent::run_log(
        num_vars,
        width,
        buffers.lend(rules.len()),
        told(log),
        records,
    )
}

/// What a run of calls should meet: each way of a record through the log, and what a wrong program would show by.
fn reach(report: &mut Report, rules: &[Ranked], mut log: Log, records: &[u64]) {
    let num_vars = rules[0].rule.num_vars;
    let is_open = log.open != 0;
    let past = log.windows[rules.len()..].iter().any(|&window| window != 0);
    report.reach_each(&[
        ("log: no sounding is open", !is_open && !records.is_empty()),
        ("log: open, neither 0 nor 1", log.open > 1),
        ("log: windows past the rules", is_open && past),
    ]);
    if !is_open {
        return;
    }
    let answers = rules.iter().zip(log.windows);
    let answers: Vec<Vec<u8>> = answers
        .map(|(ranked, window)| ranked.rule.run(window, records).answers)
        .collect();
    for (place, record) in records.chunks(num_vars).enumerate() {
        let fire = rules
            .iter()
            .zip(&answers)
            .filter(|(_, answers)| answers[place] == 1);
        let ranks: Vec<u32> = fire.map(|(ranked, _)| ranked.rank).collect();
        let least = ranks.iter().min();
        let closes = least.is_some() && log.closed_at == 0;
        let later = least.is_some() && log.closed_at != 0;
        report.reach_each(&[
            (
                "log: no firing and no close",
                least.is_none() && log.closed_at == 0,
            ),
            (
                "log: no firing after the close",
                least.is_none() && log.closed_at != 0,
            ),
            ("log: the close", closes),
            (
                "log: the close, of several rules",
                closes && ranks.len() > 1,
            ),
            (
                "log: the close, not by the first of them",
                closes && least != ranks.first(),
            ),
            (
                "log: the close, by neither the first nor the last",
                closes && least != ranks.first() && least != ranks.last(),
            ),
            (
                "log: the close, after 256 records of a call",
                closes && place >= 256,
            ),
            (
                "log: the close, by the only record of a call",
                closes && records.len() == num_vars,
            ),
            ("log: a later firing", later),
            (
                "log: a later firing, of the only record of a call",
                later && records.len() == num_vars,
            ),
            (
                "log: a later firing, of several rules",
                later && ranks.len() > 1,
            ),
            (
                "log: a later firing, of a smaller rank than the close's",
                later && least.is_some_and(|&least| least < log.rank),
            ),
            ("log: the number stays at 2^64 - 1", log.number == u64::MAX),
            (
                "log: the count stays at 2^64 - 1",
                later && log.later == u64::MAX,
            ),
        ]);
        log = log.run(rules, record);
    }
}

/// A run of soundings, each in parts, some of no records; the parts of the first come before any opening.
type Run = Vec<Vec<Vec<u64>>>;

/// What is shown after a call: the log, and the close if the call's records made it.
type Shown = (LogState, Option<Close>);

/// A run that is opened and cut anywhere: the log after every call.
pub fn compare_run(inputs: &mut Inputs, report: &mut Report) {
    let rules = any_rules(inputs);
    let mut run = Run::new();
    for _ in 0..=inputs.below(SOUNDINGS) {
        let most = inputs.one_of(&PART);
        let mut sounding = Vec::new();
        for _ in 0..inputs.below(PARTS) {
            let n = inputs.below(most + 1) as usize;
            sounding.push(logs::records(inputs, &rules, n));
        }
        run.push(sounding);
    }
    compare_shown(inputs, report, &rules, &run);
}

/// Two long soundings, one call each.
pub fn compare_long(inputs: &mut Inputs, report: &mut Report, n: usize) {
    let rules = any_rules(inputs);
    let mut half = || vec![logs::records(inputs, &rules, n / 2)];
    let run = vec![vec![], half(), half()];
    compare_shown(inputs, report, &rules, &run);
}

fn compare_shown(inputs: &mut Inputs, report: &mut Report, rules: &[Ranked], run: &Run) {
    let theirs = stated(rules, run);
    let ours = binding(rules).map_err(Refusal::from);
    let shown = ours.and_then(|log| shown(inputs, log, run));
    report.compare(Kind::LogRun, &(rules, run), &shown, &Ok(theirs));
}

/// The plain statement: what the log is after an opening, and after each part, is that of the sounding alone.
fn stated(rules: &[Ranked], run: &Run) -> Vec<Shown> {
    let mut all = Vec::new();
    for (number, sounding) in run.iter().enumerate() {
        let mut records = Vec::new();
        let mut before = if number == 0 {
            Log::default()
        } else {
            Log::opened()
        };
        all.push((told(&before), None));
        for part in sounding {
            records.extend(part);
            let after = match number {
                0 => Log::default(),
                _ => Log::of_sounding(rules, &records),
            };
            let is_new = before.closed_at == 0 && after.closed_at != 0;
            let close = is_new.then_some(Close {
                number: after.closed_at,
                rank: after.rank,
            });
            all.push((told(&after), close));
            before = after;
        }
    }
    all
}

/// The binding's log of these rules.
fn binding(rules: &[Ranked]) -> Result<simjaldek::Log, simjaldek::FormulaError> {
    let rule = &rules[0].rule;
    let rules: Vec<RankedRule<'_>> = rules.iter().map(ranked_rule).collect();
    simjaldek::Log::new(rule.num_vars as u32, rule.width, &rules)
}

fn ranked_rule(Ranked { rank, rule }: &Ranked) -> RankedRule<'_> {
    let formula = Formula::new(&rule.formula.ops, &rule.formula.operands);
    RankedRule {
        rank: *rank,
        formula: formula.expect("as many of each"),
        window: Window {
            least: rule.m as u32,
            records: rule.window as u32,
        },
    }
}

/// What the binding's log shows.
fn shown(inputs: &mut Inputs, mut log: simjaldek::Log, run: &Run) -> Result<Vec<Shown>, Refusal> {
    let num_vars = log.num_vars() as usize;
    let mut all = Vec::new();
    for (number, sounding) in run.iter().enumerate() {
        if number > 0 {
            log.open();
        }
        all.push((log.state(), None));
        for part in sounding {
            let close = match inputs.below(2) {
                0 if part.len() == num_vars => log.record(part)?,
                _ => log.records(part)?,
            };
            all.push((log.state(), close));
        }
    }
    Ok(all)
}

//! The originals of binsnake/cobra (`oracle`) and Simjaldek through its binding (`simjaldek`) on the same inputs, timed in turn in one
//! process. docs/BENCHMARKS.md has the last table and says what each row compares.
//!
//! Every module makes the two sides of its calls from one [`Setting`], and checks that they give the same answer before it times them.

mod builds;
mod candidates;
mod clock;
mod formulas;
pub mod load;
mod logs;
pub mod measure;
pub mod parse;
mod process;
mod residuals;
mod rules;
mod searches;
mod setting;
pub mod stack;
pub mod table;
mod tokens;

use measure::{Plan, Times};

pub use setting::Setting;

/// The variable counts and the widths of the table.
pub const VARIABLE_COUNTS: [u32; 5] = [1, 2, 3, 4, 6];
pub const WIDTHS: [u32; 5] = [1, 2, 8, 32, 64];
/// The width at which residual searches alone are timed.
const RESIDUALS_ALONE: u32 = 1;
/// The width at which product searches for an even target alone are timed.
const EVEN_ALONE: u32 = 2;

/// What is timed.
#[derive(Clone, Copy, Debug, PartialEq, Eq)]
pub enum Call {
    Bank,
    Index,
    SearchNothing,
    SearchNothingZero,
    SearchAtomsEarly,
    SearchAtomsLate,
    SearchPairEarly,
    SearchPairLate,
    SearchZeros,
    SearchConstant,
    SearchEven,
    CandidatesOne,
    CandidatesMany,
    CandidatesFewPairs,
    CandidatesBuckets,
    ResidualNothing,
    ResidualAtoms,
    ResidualPairEarly,
    ResidualPairLate,
    ResidualMaps,
    Evaluate,
    EvaluateCompiled,
    Cost,
    Draw,
    Rule,
    RuleOne,
    Log,
    LogOne,
    LogInPlace,
    LogOneInPlace,
}

impl Call {
    /// All calls, in the tables' order.
    pub const ALL: [Call; 30] = [
        Call::Bank,
        Call::Index,
        Call::SearchNothing,
        Call::SearchNothingZero,
        Call::SearchAtomsEarly,
        Call::SearchAtomsLate,
        Call::SearchPairEarly,
        Call::SearchPairLate,
        Call::SearchZeros,
        Call::SearchConstant,
        Call::SearchEven,
        Call::CandidatesOne,
        Call::CandidatesMany,
        Call::CandidatesFewPairs,
        Call::CandidatesBuckets,
        Call::ResidualNothing,
        Call::ResidualAtoms,
        Call::ResidualPairEarly,
        Call::ResidualPairLate,
        Call::ResidualMaps,
        Call::Evaluate,
        Call::EvaluateCompiled,
        Call::Cost,
        Call::Draw,
        Call::Rule,
        Call::RuleOne,
        Call::Log,
        Call::LogOne,
        Call::LogInPlace,
        Call::LogOneInPlace,
    ];

    /// Its heading.
    pub fn name(self) -> &'static str {
        match self {
            Call::Bank => "Bank build",
            Call::Index => "Index build, order list included",
            Call::SearchNothing => "Product search, nothing",
            Call::SearchNothingZero => "Product search, nothing, first word 0",
            Call::SearchAtomsEarly => "Product search, two atoms, early",
            Call::SearchAtomsLate => "Product search, two atoms, late",
            Call::SearchPairEarly => "Product search, atom and pair, early",
            Call::SearchPairLate => "Product search, atom and pair, late, one fits",
            Call::SearchZeros => "Product search, zeros, very many fit",
            Call::SearchConstant => "Product search, a constant",
            Call::SearchEven => "Product search, even words, very many fit",
            Call::CandidatesOne => "Candidates, one key",
            Call::CandidatesMany => "Candidates, very many keys",
            Call::CandidatesFewPairs => "Candidates, few pairs, very many keys",
            Call::CandidatesBuckets => "Candidates, the Rust's buckets made before",
            Call::ResidualNothing => "Residual search, nothing",
            Call::ResidualAtoms => "Residual search, two atoms",
            Call::ResidualPairEarly => "Residual search, atom and pair, early",
            Call::ResidualPairLate => "Residual search, atom and pair, late",
            Call::ResidualMaps => "Residual search, the Rust's maps made before",
            Call::Evaluate => "Evaluate",
            Call::EvaluateCompiled => "Evaluate, the Rust's formula compiled before",
            Call::Cost => "Cost",
            Call::Draw => "Draw a formula",
            Call::Rule => "Rule over records",
            Call::RuleOne => "Rule, one record a call",
            Call::Log => "Closing log over records",
            Call::LogOne => "Closing log, one record a call",
            Call::LogInPlace => "Closing log over records, the Rust in place and compiled before",
            Call::LogOneInPlace => {
                "Closing log, one record a call, the Rust in place and compiled before"
            }
        }
    }

    /// The most that our time may be of the Rust's; none where the Rust does less than the reference, and for single records of a rule and, beside formulas
    /// that were compiled before, of a log.
    pub fn bar(self) -> Option<f64> {
        match self {
            Call::Bank | Call::Index => Some(0.5),
            Call::EvaluateCompiled | Call::ResidualMaps | Call::CandidatesBuckets => None,
            Call::RuleOne | Call::LogOneInPlace => None,
            _ => Some(1.0),
        }
    }
}

/// A line of the table.
#[derive(Clone, Debug)]
pub struct Line {
    pub call: Call,
    pub num_vars: u32,
    pub width: u32,
    /// What the call worked on.
    pub note: String,
    pub times: Times,
}

/// Times every call of a setting.
pub fn time_setting(plan: &Plan, setting: &mut Setting) -> Vec<Line> {
    let (num_vars, width) = (setting.num_vars, setting.width);
    let mut lines = Vec::new();
    let mut take = |call: Call, note: String, times: Times| {
        lines.push(Line {
            call,
            num_vars,
            width,
            note,
            times,
        });
    };
    if width == EVEN_ALONE {
        searches::time_even(plan, setting, &mut take);
        return lines;
    }
    if width != RESIDUALS_ALONE {
        builds::time(plan, setting, &mut take);
        searches::time(plan, setting, &mut take);
        candidates::time(plan, setting, &mut take);
        formulas::time(plan, num_vars, width, &mut take);
        load::time(plan, num_vars, width, &mut take);
        rules::time(plan, num_vars, width, &mut take);
        logs::time(plan, num_vars, width, &mut take);
    }
    residuals::time(plan, setting, &mut take);
    lines
}

/// Checks that both sides of every call give the same answers.
pub fn check_setting(setting: &Setting) {
    builds::check(setting);
    if setting.width == EVEN_ALONE {
        return searches::check_even(setting);
    }
    if setting.width != RESIDUALS_ALONE {
        searches::check(setting);
        candidates::check(setting);
        formulas::check(setting.num_vars, setting.width);
        load::check(setting.num_vars, setting.width);
        rules::check(setting.num_vars, setting.width);
        logs::check(setting.num_vars, setting.width);
    }
    residuals::check(setting);
}

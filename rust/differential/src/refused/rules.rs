//! Rules of formulas, windows, records and places that are good or not.

use oracle::inputs::Inputs;
use oracle::spec::lent::RunRule;
use simjaldek::lent::{self, Records, Tokens};
use simjaldek::{Refusal, Window};

use super::formulas::damaged;
use super::{claimed, damages, length, num_vars, number, widths};
use crate::buffers::{garbage_u64, garbage_u8};
use crate::report::{Kind, Report};

/// The most records of a call.
const RECORDS: u64 = 40;

/// One call, or its refusal.
pub fn rule(inputs: &mut Inputs, report: &mut Report) {
    let handed = handed(inputs);
    let state = inputs.word();
    let mut answers = garbage_u8(inputs, handed.answers as usize);
    let before = answers.clone();
    let words = garbage_u64(inputs, handed.records as usize);
    let ran = ours(&handed, state, &words, &mut answers);
    let kept = ran.is_ok() || answers == before;
    report.refusal(
        Kind::RefusedRule,
        &(&handed, state),
        (number(ran), kept),
        handed.refusal(),
    );
}

/// What is handed in, as numbers and lengths.
fn handed(inputs: &mut Inputs) -> RunRule {
    let (good, width) = widths(inputs);
    let num_vars = num_vars(inputs);
    let formula = damaged(inputs, num_vars, good, width);
    let window = window(inputs);
    let n = inputs.below(RECORDS);
    let words = u64::from(num_vars.clamp(1, 6)) * n;
    RunRule {
        num_vars: num_vars.into(),
        width: width.into(),
        count: formula.count,
        ops: formula.ops,
        operands: formula.operands,
        m: window.least.into(),
        window: window.records.into(),
        n: claimed(inputs, n as usize) as u64,
        records: length(inputs, words),
        answers: length(inputs, n),
    }
}

/// The call.
fn ours(handed: &RunRule, state: u64, words: &[u64], answers: &mut [u8]) -> Result<u64, Refusal> {
    let ops: Vec<u8> = handed.ops.iter().map(|&op| op as u8).collect();
    let tokens = Tokens {
        count: handed.count as usize,
        ops: &ops,
        operands: &handed.operands,
    };
    let window = Window {
        least: handed.m as u32,
        records: handed.window as u32,
    };
    let records = Records {
        count: handed.n as usize,
        words,
    };
    let (num_vars, width) = (handed.num_vars as u32, handed.width as u32);
    lent::run_rule(num_vars, width, tokens, window, state, records, answers)
}

/// An M and a W, good or not; some are good when cut to fewer bits.
pub(super) fn window(inputs: &mut Inputs) -> Window {
    let records = 1 + inputs.below(64) as u32;
    let mut window = Window {
        least: 1 + inputs.below(records.into()) as u32,
        records,
    };
    if damages(inputs) {
        window.least = inputs.one_of(&[0, records + 1, 256 + window.least, 1 << 31, u32::MAX]);
    }
    if damages(inputs) {
        let less = window.least.saturating_sub(1);
        window.records = inputs.one_of(&[0, less, 65, 256 + records, u32::MAX]);
    }
    window
}

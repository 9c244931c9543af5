//! Closing logs over records. The Rust has none: its side is plain Rust from the request's sentences, handed what the call is handed, the
//! log by value and the lent tokens; what is refused is tested first, once a call. Both are timed also beside plain
//! Rust that changes the log in place and evaluates formulas that were compiled before, as for a rule (rules.rs); one record a call without a bar.

use std::hint::black_box;
use std::time::Duration;

use oracle::core::compiled::{eval, CompiledExpr};
use oracle::spec::formulas::TOKENS_MAX;
use simjaldek::lent::{self, Records, Rules, Tokens};
use simjaldek::{LogState, LOG_RULES_MAX};

use crate::measure::{alternate, together, Plan, Times};
use crate::rules::{Watch, GATE_TOKENS, RECORDS};
use crate::tokens::is_formula;
use crate::Call;

/// The sizes of formulas, and how many rules there are.
const SIZES: [usize; 2] = [GATE_TOKENS, 10];
const RULE_COUNTS: [(usize, &str); 3] = [(1, "one rule"), (2, "two rules"), (8, "eight rules")];
/// Records of a call, of a round of such calls, and of a round in which they are handed in one by one.
const AT_ONCE: usize = 1000;
const MANY: usize = 4 * AT_ONCE;
const SINGLES: usize = 256;
/// No rank.
const NONE: u32 = u32::MAX;

/// Times a record; the log runs on.
pub fn time(plan: &Plan, num_vars: u32, width: u32, take: &mut impl FnMut(Call, String, Times)) {
    check(num_vars, width);
    for size in SIZES {
        let watch = &Watch::new(num_vars, width, size);
        for (rules, told) in RULE_COUNTS {
            let station = &Station::new(watch, rules);
            for (call, in_place, count, at_once) in [
                (Call::Log, Call::LogInPlace, MANY, AT_ONCE),
                (Call::LogOne, Call::LogOneInPlace, SINGLES, 1),
            ] {
                let note = format!("{told} of {size} tokens, {at_once} a call");
                let mut ours = station.timed(count, at_once, |handed, log| handed.ours(log));
                let mut plain = station.timed(count, at_once, |handed, log| {
                    *log = handed.written(*log).expect("in range");
                });
                let times = alternate(plan, &mut ours, &mut plain).per(count);
                take(call, note.clone(), times);
                let mut stack = Vec::new();
                let mut plain = station.timed(count, at_once, |handed, log| {
                    handed.plain(log, &mut stack);
                });
                let times = alternate(plan, &mut ours, &mut plain).per(count);
                take(in_place, note, times);
            }
        }
    }
}

/// Both sides give the same logs.
pub fn check(num_vars: u32, width: u32) {
    for size in SIZES {
        let watch = Watch::new(num_vars, width, size);
        for (rules, _) in RULE_COUNTS {
            let station = Station::new(&watch, rules);
            let mut stack = Vec::new();
            for at_once in [1, 17, AT_ONCE] {
                let mut log = LogState::default();
                for _ in 0..2 {
                    station.run(&mut log, RECORDS, at_once, &mut |handed, log| {
                        let mut theirs = *log;
                        handed.plain(&mut theirs, &mut stack);
                        assert_eq!(handed.written(*log), Some(theirs));
                        handed.ours(log);
                        assert_eq!(theirs, *log);
                    });
                    log = lent::open_log(log);
                }
            }
        }
    }
}

/// The first rules of a watch in the arrays that are lent, the ranks falling; the same compiled.
struct Station<'a> {
    watch: &'a Watch,
    ranks: Vec<u32>,
    ms: Vec<u32>,
    windows: Vec<u32>,
    token_counts: Vec<u32>,
    ops: Vec<u8>,
    operands: Vec<u64>,
    compiled: Vec<CompiledExpr>,
}

impl<'a> Station<'a> {
    fn new(watch: &'a Watch, count: usize) -> Self {
        let rules = &watch.rules[..count];
        let (mut ops, mut operands) = (vec![0; TOKENS_MAX * count], vec![0; TOKENS_MAX * count]);
        for (place, rule) in rules.iter().enumerate() {
            let formula = &rule.formula;
            let tokens = TOKENS_MAX * place..TOKENS_MAX * place + formula.ops.len();
            ops[tokens.clone()].copy_from_slice(&formula.ops);
            operands[tokens].copy_from_slice(&formula.operands);
        }
        let counts = rules.iter().map(|rule| rule.formula.ops.len() as u32);
        Station {
            watch,
            ranks: (1..=count as u32).rev().collect(),
            ms: rules.iter().map(|rule| rule.window.least).collect(),
            windows: rules.iter().map(|rule| rule.window.records).collect(),
            token_counts: counts.collect(),
            ops,
            operands,
            compiled: rules.iter().map(|rule| rule.compiled.clone()).collect(),
        }
    }

    fn lend(&self) -> Rules<'_> {
        Rules {
            count: self.ranks.len(),
            ranks: &self.ranks,
            ms: &self.ms,
            windows: &self.windows,
            token_counts: &self.token_counts,
            ops: &self.ops,
            operands: &self.operands,
        }
    }

    /// The first records, so many at once.
    fn run(
        &self,
        log: &mut LogState,
        count: usize,
        at_once: usize,
        side: &mut impl FnMut(&Handed<'_>, &mut LogState),
    ) {
        let words = self.watch.num_vars as usize;
        let mut handed = Handed {
            num_vars: self.watch.num_vars,
            width: self.watch.width,
            rules: self.lend(),
            compiled: &self.compiled,
            records: Records::NONE,
        };
        for part in self.watch.records[..words * count].chunks(words * at_once) {
            handed.records = Records {
                count: part.len() / words,
                words: part,
            };
            side(black_box(&handed), black_box(log));
        }
    }

    /// Rounds of one side, from an opening on.
    fn timed<'b>(
        &'b self,
        count: usize,
        at_once: usize,
        mut side: impl FnMut(&Handed<'_>, &mut LogState) + 'b,
    ) -> impl FnMut(u32) -> Duration + 'b {
        let mut log = lent::open_log(LogState::default());
        together(move || self.run(&mut log, count, at_once, &mut side))
    }
}

/// What both sides are handed, beside the log.
struct Handed<'a> {
    num_vars: u32,
    width: u32,
    rules: Rules<'a>,
    compiled: &'a [CompiledExpr],
    records: Records<'a>,
}

impl Handed<'_> {
    /// Our side.
    fn ours(&self, log: &mut LogState) {
        let ran = lent::run_log(self.num_vars, self.width, self.rules, *log, self.records);
        *log = ran.expect("in range");
    }

    /// Plain Rust: the same, with the compiled formulas.
    fn plain(&self, log: &mut LogState, stack: &mut Vec<u64>) {
        assert!(self.is_fit());
        if log.open == 0 {
            return;
        }
        log.open = 1;
        let records = self.records.words.chunks_exact(self.num_vars as usize);
        for record in records.take(self.records.count) {
            log.number = log.number.saturating_add(1);
            let rank = self.fed(&mut log.windows, record, stack);
            if rank == NONE {
                continue;
            }
            if log.closed_at == 0 {
                (log.closed_at, log.rank) = (log.number, rank);
            } else {
                log.later = log.later.saturating_add(1);
            }
        }
    }

    /// Plain Rust of the same form: the log by value, in and back, and each formula read from the lent tokens.
    #[inline(never)]
    fn written(&self, mut log: LogState) -> Option<LogState> {
        if !self.is_fit() {
            return None;
        }
        if log.open == 0 {
            return Some(log);
        }
        log.open = 1;
        let mut stack = [0; TOKENS_MAX];
        let records = self.records.words.chunks_exact(self.num_vars as usize);
        for record in records.take(self.records.count) {
            log.number = log.number.saturating_add(1);
            let mut least = NONE;
            for rule in 0..self.rules.count {
                let value = evaluate(self.tokens(rule), record, self.width, &mut stack);
                let history = log.windows[rule] << 1 | u64::from(value != 0);
                log.windows[rule] = history;
                let mask = u64::MAX >> (64 - self.rules.windows[rule]);
                if (history & mask).count_ones() >= self.rules.ms[rule] {
                    least = least.min(self.rules.ranks[rule]);
                }
            }
            if least == NONE {
                continue;
            }
            if log.closed_at == 0 {
                (log.closed_at, log.rank) = (log.number, least);
            } else {
                log.later = log.later.saturating_add(1);
            }
        }
        Some(log)
    }

    /// Feeds each rule a record: the least rank that fires.
    #[inline]
    fn fed(&self, windows: &mut [u64; LOG_RULES_MAX], record: &[u64], stack: &mut Vec<u64>) -> u32 {
        let Rules {
            ranks,
            ms,
            windows: lengths,
            ..
        } = self.rules;
        let rules = ranks.iter().zip(ms).zip(lengths).zip(self.compiled);
        let mut least = NONE;
        for ((((&rank, &m), length), compiled), history) in rules.zip(windows) {
            let value = eval(compiled, record, stack);
            *history = *history << 1 | u64::from(value != 0);
            let mask = u64::MAX >> (64 - length);
            if (*history & mask).count_ones() >= m {
                least = least.min(rank);
            }
        }
        least
    }

    /// What refusals 1, 2, 4, 6, 10 and 11 test.
    fn is_fit(&self) -> bool {
        (1..=6).contains(&self.num_vars)
            && (1..=64).contains(&self.width)
            && self.are_arrays_long()
            && (0..self.rules.count).all(|rule| self.is_formula(rule))
            && (0..self.rules.count).all(|rule| self.is_window(rule))
            && are_ranks(&self.rules.ranks[..self.rules.count])
    }

    fn are_arrays_long(&self) -> bool {
        let Rules { count, .. } = self.rules;
        self.rules.ranks.len() >= count
            && self.rules.ms.len() >= count
            && self.rules.windows.len() >= count
            && self.rules.token_counts.len() >= count
            && self.rules.ops.len() / TOKENS_MAX >= count
            && self.rules.operands.len() / TOKENS_MAX >= count
            && self.records.words.len() / self.num_vars as usize >= self.records.count
    }

    fn tokens(&self, rule: usize) -> Tokens<'_> {
        Tokens {
            count: self.rules.token_counts[rule] as usize,
            ops: &self.rules.ops[TOKENS_MAX * rule..],
            operands: &self.rules.operands[TOKENS_MAX * rule..],
        }
    }

    fn is_formula(&self, rule: usize) -> bool {
        is_formula(self.num_vars.into(), self.tokens(rule))
    }

    fn is_window(&self, rule: usize) -> bool {
        let window = self.rules.windows[rule];
        (1..=64).contains(&window) && (1..=window).contains(&self.rules.ms[rule])
    }
}

/// The value of a formula, modulo 2^width, over a stack.
fn evaluate(tokens: Tokens<'_>, words: &[u64], width: u32, stack: &mut [u64; TOKENS_MAX]) -> u64 {
    let mask = u64::MAX >> (64 - width);
    let mut top = 0;
    for (&op, &operand) in tokens.ops.iter().zip(tokens.operands).take(tokens.count) {
        match op {
            0 | 1 => {
                stack[top] = if op == 0 {
                    operand
                } else {
                    words[operand as usize]
                } & mask;
                top += 1;
            }
            7 => stack[top - 1] = !stack[top - 1] & mask,
            8 => stack[top - 1] = stack[top - 1].wrapping_neg() & mask,
            _ => {
                top -= 1;
                let (a, b) = (stack[top - 1], stack[top]);
                let value = match op {
                    2 => a.wrapping_add(b),
                    3 => a.wrapping_mul(b),
                    4 => a & b,
                    5 => a | b,
                    _ => a ^ b,
                };
                stack[top - 1] = value & mask;
            }
        }
    }
    stack[0]
}

/// One to eight ranks of 1 to 8, no two equal.
fn are_ranks(ranks: &[u32]) -> bool {
    let mut seen = 0u32;
    for &rank in ranks {
        if !(1..=8).contains(&rank) || seen >> rank & 1 == 1 {
            return false;
        }
        seen |= 1 << rank;
    }
    // nine have two equal ones
    seen != 0
}

#[cfg(test)]
mod tests {
    use super::{are_ranks, check};

    #[test]
    fn both_sides() {
        for (num_vars, width) in [(2, 8), (3, 64), (6, 33)] {
            check(num_vars, width);
        }
    }

    #[test]
    fn ranks() {
        assert!(are_ranks(&[8]) && are_ranks(&[3, 1, 2]) && are_ranks(&[1, 2, 3, 4, 5, 6, 7, 8]));
        for ranks in [&[][..], &[0], &[9], &[u32::MAX], &[1, 1], &[2, 1, 2]] {
            assert!(!are_ranks(ranks), "{ranks:?}");
        }
        assert!(!are_ranks(&[1, 2, 3, 4, 5, 6, 7, 8, 1]));
    }
}

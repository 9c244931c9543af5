//! Rules over records. The Rust has none: its side is plain Rust over the originals' compiled evaluator, which is made before, with one
//! stack for all records and the marks of the last 64 in a word; what is refused is tested first, once a call. Calls of one record each
//! are timed too, without a bar.

use std::hint::black_box;
use std::time::Duration;

use oracle::access::{expr_of, Formula};
use oracle::core::compiled::{compile, eval, CompiledExpr};
use oracle::made::formulas::{left_chain, Lean, Maker};
use oracle::spec::formulas::{ADD, AND, CONSTANT, GATES, TOKENS_MAX, VARIABLE, XOR};
use simjaldek::lent::{self, Records, Tokens};
use simjaldek::Window;

use crate::measure::{alternate, together, Plan, Times};
use crate::setting::inputs;
use crate::tokens::is_formula;
use crate::Call;

/// The sizes of formulas: a gate over two leaves, and longer ones.
pub const GATE_TOKENS: usize = 3;
const SIZES: [usize; 3] = [GATE_TOKENS, 10, TOKENS_MAX];
/// Rules of a size; the shapes of the longer ones, and M and W of the windows.
const RULES: usize = 8;
const SHAPES: [Lean; 4] = [Lean::Left, Lean::Right, Lean::Any, Lean::Any];
const WINDOWS: [(u32, u32); 4] = [(3, 5), (1, 1), (32, 64), (10, 16)];
/// Records of a call, and records that are handed in one by one.
pub const RECORDS: usize = 4096;
const SINGLES: usize = 256;

/// The rules of one size, and the records that each of them is run over.
pub struct Watch {
    pub num_vars: u32,
    pub width: u32,
    pub rules: Vec<Rule>,
    pub records: Vec<u64>,
}

/// A rule as the sides hold it.
pub struct Rule {
    pub formula: Formula,
    pub compiled: CompiledExpr,
    pub window: Window,
}

/// Times a record; the calls of a round are one for each rule, or one for each rule and record. The state runs on.
pub fn time(plan: &Plan, num_vars: u32, width: u32, take: &mut impl FnMut(Call, String, Times)) {
    check(num_vars, width);
    for size in SIZES {
        let watch = &Watch::new(num_vars, width, size);
        for (call, count, at_once) in [(Call::Rule, RECORDS, RECORDS), (Call::RuleOne, SINGLES, 1)]
        {
            let mut stack = Vec::new();
            let mut ours = watch.timed(count, at_once, |handed, answers| handed.ours(answers));
            let mut plain = watch.timed(count, at_once, |handed, answers| {
                handed.plain(answers, &mut stack)
            });
            let times = alternate(plan, &mut ours, &mut plain).per(RULES * count);
            let note = format!("{RULES} formulas of {size} tokens, {count} records");
            take(call, note, times);
        }
    }
}

/// Both sides give the same answers and the same states.
pub fn check(num_vars: u32, width: u32) {
    for size in SIZES {
        let watch = Watch::new(num_vars, width, size);
        let mut stack = Vec::new();
        for at_once in [1, 17, RECORDS] {
            let mut run = Run::new();
            watch.run(&mut run, RECORDS, at_once, &mut |handed, answers| {
                let mut theirs = answers.to_vec();
                let state = handed.ours(answers);
                assert_eq!(handed.plain(&mut theirs, &mut stack), state);
                assert_eq!(answers, theirs);
                state
            });
        }
    }
}

/// Where a side's run stands, and its answers.
struct Run {
    state: u64,
    answers: Vec<u8>,
}

impl Run {
    fn new() -> Self {
        Run {
            state: 0,
            answers: vec![0; RECORDS],
        }
    }
}

impl Watch {
    pub fn new(num_vars: u32, width: u32, size: usize) -> Self {
        let inputs = &mut inputs(num_vars, width, 5);
        let words = num_vars as usize * RECORDS;
        let records = (0..words).map(|_| inputs.word_of_width(width)).collect();
        let mut maker = Maker {
            inputs,
            num_vars: num_vars.into(),
            width,
        };
        let formulas: Vec<Formula> = match size {
            GATE_TOKENS => gates(&mut maker),
            _ => (0..RULES)
                .map(|turn| maker.formula(size, SHAPES[turn % SHAPES.len()]))
                .collect(),
        };
        let rules = formulas.into_iter().zip(WINDOWS.into_iter().cycle());
        Watch {
            num_vars,
            width,
            rules: rules
                .map(|(formula, window)| Rule::new(formula, width, window))
                .collect(),
            records,
        }
    }

    /// All rules over the first records, so many at once.
    fn run(
        &self,
        run: &mut Run,
        count: usize,
        at_once: usize,
        side: &mut impl FnMut(Handed<'_>, &mut [u8]) -> u64,
    ) {
        let words = self.num_vars as usize;
        for rule in &self.rules {
            let parts = self.records[..words * count].chunks(words * at_once);
            for (part, answers) in parts.zip(run.answers.chunks_mut(at_once)) {
                let handed = Handed {
                    watch: self,
                    rule,
                    state: run.state,
                    records: Records {
                        count: part.len() / words,
                        words: part,
                    },
                };
                run.state = side(black_box(handed), black_box(answers));
            }
        }
    }

    /// Rounds of one side.
    fn timed<'a>(
        &'a self,
        count: usize,
        at_once: usize,
        mut side: impl FnMut(Handed<'_>, &mut [u8]) -> u64 + 'a,
    ) -> impl FnMut(u32) -> Duration + 'a {
        let mut run = Run::new();
        together(move || self.run(&mut run, count, at_once, &mut side))
    }
}

/// Each gate over two variables, and three over a variable and a constant.
fn gates(maker: &mut Maker<'_>) -> Vec<Formula> {
    let last = (VARIABLE, maker.num_vars - 1);
    let variables = GATES.map(|gate| left_chain(&[(VARIABLE, 0), last], &[gate]));
    let constants = [AND, XOR, ADD].map(|gate| {
        let constant = (CONSTANT, maker.inputs.word_of_width(maker.width));
        left_chain(&[last, constant], &[gate])
    });
    variables.into_iter().chain(constants).collect()
}

impl Rule {
    fn new(formula: Formula, width: u32, (least, records): (u32, u32)) -> Self {
        let compiled = compile(&expr_of(&formula), width);
        Rule {
            formula,
            compiled,
            window: Window { least, records },
        }
    }

    fn tokens(&self) -> Tokens<'_> {
        Tokens {
            count: self.formula.ops.len(),
            ops: &self.formula.ops,
            operands: &self.formula.operands,
        }
    }
}

/// What both sides are handed, beside the places for the answers.
struct Handed<'a> {
    watch: &'a Watch,
    rule: &'a Rule,
    state: u64,
    records: Records<'a>,
}

impl Handed<'_> {
    /// Our side: the state after the records.
    fn ours(&self, answers: &mut [u8]) -> u64 {
        let Watch {
            num_vars, width, ..
        } = *self.watch;
        let ran = lent::run_rule(
            num_vars,
            width,
            self.rule.tokens(),
            self.rule.window,
            self.state,
            self.records,
            answers,
        );
        ran.expect("in range")
    }

    /// Plain Rust: the same, with the compiled formula.
    fn plain(&self, answers: &mut [u8], stack: &mut Vec<u64>) -> u64 {
        assert!(self.is_fit(answers));
        let window = self.rule.window;
        let mask = u64::MAX >> (64 - window.records);
        let records = self
            .records
            .words
            .chunks_exact(self.watch.num_vars as usize);
        let mut history = self.state;
        for (answer, record) in answers.iter_mut().zip(records.take(self.records.count)) {
            let value = eval(&self.rule.compiled, record, stack);
            history = history << 1 | u64::from(value != 0);
            *answer = u8::from((history & mask).count_ones() >= window.least);
        }
        history
    }

    /// What refusals 1, 2, 4, 6 and 10 test.
    fn is_fit(&self, answers: &[u8]) -> bool {
        let (num_vars, window, records) = (self.watch.num_vars, self.rule.window, self.records);
        let tokens = self.rule.tokens();
        (1..=6).contains(&num_vars)
            && (1..=64).contains(&self.watch.width)
            && tokens.ops.len().min(tokens.operands.len()) >= tokens.count
            && records.words.len() / num_vars as usize >= records.count
            && answers.len() >= records.count
            && is_formula(num_vars.into(), tokens)
            && (1..=64).contains(&window.records)
            && (1..=window.records).contains(&window.least)
    }
}

#[cfg(test)]
mod tests {
    use super::check;

    #[test]
    fn both_sides() {
        for (num_vars, width) in [(2, 8), (3, 64), (6, 33)] {
            check(num_vars, width);
        }
    }
}

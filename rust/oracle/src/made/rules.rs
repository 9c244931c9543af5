//! Formulas for rules, and records and states with which a rule fires and with which it doesn't.

use crate::access::Formula;
use crate::inputs::Inputs;
use crate::made::formulas::{Lean, Maker};
use crate::spec::formulas::{AND, CONSTANT};
use crate::spec::rule::Rule;

/// Records that those of a run are picked from.
const POOL: usize = 24;

const LEANS: [Lean; 4] = [Lean::Left, Lean::Right, Lean::Any, Lean::Any];

/// A formula of so many tokens: any, or one bit of any, which is zero about as often as not.
pub fn formula(inputs: &mut Inputs, num_vars: u64, width: u32, tokens: usize) -> Formula {
    let lean = inputs.one_of(&LEANS);
    let bit = 1 << inputs.below(width.into());
    let is_bit = tokens > 2 && inputs.below(2) == 0;
    let mut maker = Maker {
        inputs,
        num_vars,
        width,
    };
    if is_bit {
        masked(&mut maker, tokens, lean, bit)
    } else {
        maker.formula(tokens, lean)
    }
}

/// One bit of any formula, of so many tokens, three at least.
pub fn bit_formula(inputs: &mut Inputs, num_vars: u64, width: u32, tokens: usize) -> Formula {
    let lean = inputs.one_of(&LEANS);
    let bit = 1 << inputs.below(width.into());
    let mut maker = Maker {
        inputs,
        num_vars,
        width,
    };
    masked(&mut maker, tokens, lean, bit)
}

fn masked(maker: &mut Maker<'_>, tokens: usize, lean: Lean, bit: u64) -> Formula {
    let mut formula = maker.formula(tokens - 2, lean);
    formula.push(CONSTANT, bit);
    formula.push(AND, 0);
    formula
}

/// So many records, nonzero nearly as often as the rule takes to fire, if its formula can be both; here and there a word from 2^width up.
pub fn records(inputs: &mut Inputs, rule: &Rule, n: usize) -> Vec<u64> {
    let mut maker = Maker {
        inputs,
        num_vars: rule.num_vars as u64,
        width: rule.width,
    };
    let pool: Vec<Vec<u64>> = (0..POOL).map(|_| maker.words()).collect();
    let marks = rule.marks(&pool.concat());
    let of_mark = |wanted: bool| -> Vec<&[u64]> {
        let marked = pool.iter().zip(&marks).filter(|(_, &mark)| mark == wanted);
        marked.map(|(record, _)| &record[..]).collect()
    };
    let [zero, nonzero] = [false, true].map(of_mark);
    let mut records = Vec::new();
    for _ in 0..n {
        let wanted = if mark(inputs, rule) { &nonzero } else { &zero };
        let other = if zero.is_empty() { &nonzero } else { &zero };
        let record = inputs.one_of(if wanted.is_empty() { other } else { wanted });
        records.extend(record);
        if inputs.below(4) == 0 {
            let place = records.len() - 1 - inputs.below(record.len() as u64) as usize;
            raise(inputs, &mut records[place], rule.width);
        }
    }
    records
}

/// Sets a bit from 2^width up. At width 64 there is none.
pub(super) fn raise(inputs: &mut Inputs, word: &mut u64, width: u32) {
    if width < 64 {
        *word |= 1 << (u64::from(width) + inputs.below(u64::from(64 - width)));
    }
}

/// A mark that is as often nonzero: M - 1/2 times of W.
fn mark(inputs: &mut Inputs, rule: &Rule) -> bool {
    inputs.below(2 * rule.window as u64) < 2 * rule.m as u64 - 1
}

/// The empty state, all ones, any, or marks as often nonzero as the records'.
pub fn state(inputs: &mut Inputs, rule: &Rule) -> u64 {
    match inputs.below(6) {
        0 => 0,
        1 => u64::MAX,
        2 => inputs.word(),
        _ => (0..64).fold(0, |state, bit| state | u64::from(mark(inputs, rule)) << bit),
    }
}

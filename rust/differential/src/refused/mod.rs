//! Refusals of every call against the plain statement of the specification's table, with inputs that are damaged in none, one or
//! several ways; a refused call must leave every buffer as it was.

mod banks;
mod formulas;
mod indexes;
mod loads;
mod logs;
mod products;
mod rules;
mod searches;
mod words;

pub use loads::draw;
pub use logs::log;
pub use products::product;
pub use rules::rule;
pub use searches::residual;

use oracle::inputs::Inputs;
use simjaldek::Refusal;

use crate::any_width;
use crate::report::Report;

const TURNS: usize = 4;

/// Each call that takes arrays a few times, the others once.
pub fn compare(inputs: &mut Inputs, report: &mut Report) {
    for _ in 0..TURNS {
        banks::build(inputs, report);
        banks::find_row(inputs, report);
        banks::atom_row(inputs, report);
        indexes::build(inputs, report);
        searches::candidates(inputs, report);
        products::product(inputs, report);
        searches::residual(inputs, report);
        formulas::compare(inputs, report);
        loads::draw(inputs, report);
        rules::rule(inputs, report);
        logs::log(inputs, report);
    }
    words::compare(inputs, report);
}

/// The number of a refusal, 0 for an answer.
fn number<T>(answer: Result<T, Refusal>) -> u64 {
    answer.err().map_or(0, |refusal| refusal.number().into())
}

/// Whether to damage one of several things.
fn damages(inputs: &mut Inputs) -> bool {
    inputs.below(8) == 0
}

/// A width that is to be refused, or the good one.
fn width_or_bad(inputs: &mut Inputs, width: u32) -> u32 {
    if damages(inputs) {
        return inputs.one_of(&[0, 65, 66, 1 << 31, u32::MAX]);
    }
    width
}

/// A variable count, good or not.
fn num_vars(inputs: &mut Inputs) -> u32 {
    if damages(inputs) {
        return inputs.one_of(&[0, 7, 8, 1 << 31, u32::MAX]);
    }
    1 + inputs.below(6) as u32
}

/// A length: as needed or more, or less.
fn length(inputs: &mut Inputs, needed: u64) -> u64 {
    match inputs.below(24) {
        0 => needed.saturating_sub(1),
        1 => inputs.below(needed + 1),
        2..=4 => needed + 1 + inputs.below(20),
        _ => needed,
    }
}

/// Cuts a list to a length that may be too short; it grows no longer.
fn cut<T>(inputs: &mut Inputs, list: &mut Vec<T>) {
    let length = length(inputs, list.len() as u64);
    list.truncate(length as usize);
}

/// A count that is claimed: the true one, one more, or far too many.
fn claimed(inputs: &mut Inputs, count: usize) -> usize {
    if damages(inputs) {
        return inputs.one_of(&[count + 1, 1 << 60, usize::MAX]);
    }
    count
}

/// Makes a word reach 2^width, if any can.
fn reach(inputs: &mut Inputs, words: &mut [u64], width: u32) {
    if width < 64 && !words.is_empty() {
        let place = inputs.below(words.len() as u64) as usize;
        words[place] |= 1 << (u64::from(width) + inputs.below(64 - u64::from(width)));
    }
}

/// A good width for the words, and the width that is handed in.
fn widths(inputs: &mut Inputs) -> (u32, u32) {
    let width = any_width(inputs);
    (width, width_or_bad(inputs, width))
}

/// The words of a row below 2^width; here and there one that reaches it, or too few words.
fn row_words(inputs: &mut Inputs, width: u32) -> Vec<u64> {
    let mut words = inputs.row(width).to_vec();
    if damages(inputs) {
        reach(inputs, &mut words, width);
    }
    cut(inputs, &mut words);
    words
}

/// Sixteen words of a slice, zeros where it ends.
fn padded(words: &[u64]) -> [u64; 16] {
    std::array::from_fn(|place| words.get(place).copied().unwrap_or(0))
}

//! The listing program's text: its numbers, and what the table refuses of them.

use super::formulas::VARS_MAX;
use super::refusals::{
    NONE, REFUSED_LIMIT, REFUSED_TEXT, REFUSED_VARS, REFUSED_WIDTH, REFUSED_WORD,
};
use super::texts;

/// The largest limit of the listing program.
pub const LIMIT_MAX: u64 = 500;

/// The numbers of a text: 19 + 16 × (first number) of them, or nothing.
pub fn numbers(text: &[u8]) -> Option<Vec<u64>> {
    let numbers = texts::numbers(text)?;
    let first = u128::from(*numbers.first()?);
    (numbers.len() as u128 == 19 + 16 * first).then_some(numbers)
}

/// The table for the listing program: 9 before all, then 1, 2, 3, 5, the least that applies.
pub fn refusal(text: &[u8]) -> u64 {
    numbers(text).map_or(REFUSED_TEXT, |numbers| refusal_of_numbers(&numbers))
}

fn refusal_of_numbers(numbers: &[u64]) -> u64 {
    let [num_vars, width, limit] = [numbers[0], numbers[1], numbers[2]];
    let words = &numbers[3..];
    if !(1..=VARS_MAX).contains(&num_vars) {
        REFUSED_VARS
    } else if !(1..=64).contains(&width) {
        REFUSED_WIDTH
    } else if limit > LIMIT_MAX {
        REFUSED_LIMIT
    } else if words.iter().any(|&word| u128::from(word) >> width != 0) {
        REFUSED_WORD
    } else {
        NONE
    }
}

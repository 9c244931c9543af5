//! The numbers that texts ask with, and the plain text of numbers.

use std::iter;

use crate::inputs::one_variable;
use crate::made::banks::BankInput;
use crate::spec::texts::parted;

/// Places of the first numbers.
pub const NUM_VARS: usize = 0;
pub const WIDTH: usize = 1;
pub const LIMIT: usize = 2;
pub const POINTS: usize = 3;
const TARGET_WORDS: usize = 16;

/// A bank and the limit of its index.
pub fn numbers_of(bank: &BankInput, limit: u64) -> Vec<u64> {
    let mut numbers = bank.numbers();
    numbers.insert(LIMIT, limit);
    numbers
}

/// Where the target's words begin.
pub fn target(numbers: &[u64]) -> usize {
    numbers.len() - TARGET_WORDS
}

/// The numbers of P2, with a limit.
pub fn p2(limit: u64) -> Vec<u64> {
    let bank = BankInput {
        num_vars: 1,
        width: 2,
        points: one_variable(&[0, 1, 2, 3]),
        target: [0; 16],
    };
    numbers_of(&bank, limit)
}

/// As many numbers as a variable count asks for: width 2, limit 3, and ones.
pub fn ones(num_vars: u64) -> Vec<u64> {
    let mut numbers = vec![num_vars, 2, 3];
    numbers.resize(19 + 16 * num_vars as usize, 1);
    numbers
}

/// The first three numbers on one line, then sixteen on each.
pub fn plain(numbers: &[u64]) -> Vec<u8> {
    let (first, words) = numbers.split_at(POINTS);
    let lines = iter::once(first).chain(words.chunks(TARGET_WORDS));
    let text: String = lines.map(|line| parted(line) + "\n").collect();
    text.into_bytes()
}

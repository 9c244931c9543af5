//! Rows of few kinds, so that rows repeat and one often completes another.

use crate::access::Row;
use crate::inputs::Inputs;

/// Two to nine rows: of one word, of two in turn, or any.
pub fn few_rows(inputs: &mut Inputs, width: u32) -> Vec<Row> {
    let count = 2 + inputs.below(8);
    (0..count).map(|_| few_words(inputs, width)).collect()
}

/// A row of one word, of two in turn, or any.
pub fn few_words(inputs: &mut Inputs, width: u32) -> Row {
    let words = [inputs.word_of_width(width), inputs.word_of_width(width)];
    match inputs.below(8) {
        0 => inputs.row(width),
        1..=4 => [words[0]; 16],
        _ => std::array::from_fn(|place| words[place % 2]),
    }
}

/// One of the rows, now and then with its least bit changed in one word.
pub fn near_one_of(inputs: &mut Inputs, rows: &[Row]) -> Row {
    let row = inputs.one_of(rows);
    match inputs.below(6) {
        0 => near(inputs, row, 1),
        _ => row,
    }
}

/// A row with a bit below the width changed: in the first word, in the last or in any.
pub fn near(inputs: &mut Inputs, mut row: Row, width: u32) -> Row {
    let any = inputs.below(16) as usize;
    let place = inputs.one_of(&[0, 15, any]);
    row[place] ^= 1 << inputs.below(u64::from(width));
    row
}

/// A row with a bit from 2^width up set: in one word (the first, the last or any), or in every one. At width 64 there is none.
pub fn raised(inputs: &mut Inputs, mut row: Row, width: u32) -> Row {
    let any = inputs.below(16) as usize;
    let one = inputs.one_of(&[0, 15, any]);
    let all = inputs.below(2) == 0;
    for (place, word) in row.iter_mut().enumerate() {
        if width < 64 && (all || place == one) {
            *word |= 1 << (u64::from(width) + inputs.below(u64::from(64 - width)));
        }
    }
    row
}

/// One of the rows; every other time one of the last quarter.
pub fn late_one_of(inputs: &mut Inputs, rows: &[Row]) -> Row {
    match inputs.below(2) {
        0 => inputs.one_of(&rows[rows.len() * 3 / 4..]),
        _ => inputs.one_of(rows),
    }
}

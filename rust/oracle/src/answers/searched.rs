//! Built banks with their indexes, for the lines that search them.

use crate::access::Row;

use super::data_file::{DataFile, NUMBERS_MAX};
use crate::differences::Setting;
use crate::inputs::{one_variable, Inputs};
use crate::made::banks::{largest, BankInput};
use crate::spec::index as spec;

/// The largest limit in a data file.
pub const LIMIT_MAX: usize = 500;

/// A bank with its index.
pub struct Searched {
    bank: BankInput,
    index_width: u32,
    limit: usize,
    pub setting: Setting,
}

impl Searched {
    /// With the index at the search's width.
    pub fn new(bank: BankInput, width: u32, limit: usize) -> Self {
        Self::with_index(bank, width, width, limit)
    }

    /// With an index of another width than the search's. The Rust's bank must be the specification's, and its index where the bank's
    /// words are below 2^index_width.
    pub fn with_index(bank: BankInput, index_width: u32, width: u32, limit: usize) -> Self {
        assert!(limit <= LIMIT_MAX);
        let setting = Setting::with_index(bank.bank(), limit, index_width, width);
        let expected = spec::index(&setting.rows, index_width, limit);
        let index = &setting.index;
        assert_eq!(
            (&index.pairs, &index.rows, index.all > limit),
            (&expected.pairs, &expected.rows, expected.cut)
        );
        Self {
            bank,
            index_width,
            limit,
            setting,
        }
    }

    /// A line of a kind: the bank, the widths of index and search and the limit, the row searched for, the answer.
    pub fn line(&self, file: &mut DataFile, kind: u64, row: &Row, answer: &[u64]) {
        let width = self.setting.width;
        assert!(row.iter().all(|&word| word <= largest(width)));
        let bank = self.bank.numbers();
        let asked = [self.index_width.into(), width.into(), self.limit as u64];
        assert!(1 + bank.len() + asked.len() + row.len() + answer.len() <= NUMBERS_MAX);
        file.line(kind, &[&bank, &asked, row, answer]);
    }
}

/// P2's bank.
pub fn p2() -> BankInput {
    BankInput {
        num_vars: 1,
        width: 2,
        points: one_variable(&[0, 1, 2, 3]),
        target: [0; 16],
    }
}

/// A bank whose index has at least a pair and is whole.
pub fn small_bank(inputs: &mut Inputs, num_vars: u32) -> BankInput {
    loop {
        let width = 1 + inputs.below(8) as u32;
        let bank = BankInput::of_any_style(inputs, num_vars, width);
        let rows: Vec<Row> = bank.bank_of_spec().iter().map(|atom| atom.row).collect();
        let index = spec::index(&rows, width, LIMIT_MAX);
        if !index.cut && !index.pairs.is_empty() {
            return bank;
        }
    }
}

/// A row with one word changed.
pub fn changed(row: &Row, place: usize, bits: u64) -> Row {
    let mut row = *row;
    row[place] ^= bits;
    row
}

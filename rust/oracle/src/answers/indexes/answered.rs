//! Lines of kind 13: indexes by the specification; where the bank's words are below 2^width the Rust's are the same.

use crate::access::{self, Row};

use super::ANSWERED;
use crate::answers::data_file::DataFile;
use crate::digest::digest;
use crate::inputs::{one_variable, repeated, Inputs};
use crate::made::banks::{BankInput, Points, Target};
use crate::made::indexes;
use crate::spec::index as spec;
use crate::spec::product::order_list;

/// The largest limit in the file.
const LIMIT_MAX: usize = 500;
/// Banks with a small index, for each variable count.
const SMALL_BANKS: usize = 6;
/// Banks with an index of another width, for each variable count.
const OTHER_WIDTHS: usize = 4;

/// A bank, and the width of its index.
struct IndexInput {
    bank: BankInput,
    rows: Vec<Row>,
    width: u32,
}

impl IndexInput {
    fn new(bank: BankInput, width: u32) -> Self {
        let rows = bank.bank_of_spec().iter().map(|atom| atom.row).collect();
        Self { bank, rows, width }
    }

    /// How many pairs there are in all, if they are at most so many.
    fn all_pairs(&self, limit: usize) -> Option<usize> {
        let index = spec::index(&self.rows, self.width, limit);
        (!index.cut).then_some(index.pairs.len())
    }

    /// Limits about the number of all pairs, or the largest if there are more pairs than that, and the given ones.
    fn limits(&self, further: &[usize]) -> Vec<usize> {
        let mut limits = further.to_vec();
        match self.all_pairs(LIMIT_MAX - 1) {
            Some(all) => limits.extend([all.saturating_sub(1), all, all + 1]),
            None => limits.push(LIMIT_MAX),
        }
        limits.sort_unstable();
        limits.dedup();
        limits
    }
}

pub fn lines(file: &mut DataFile) {
    for (input, limits) in index_inputs() {
        let atoms = input.bank.bank();
        assert!(atoms.iter().map(|atom| atom.row).eq(input.rows.clone()));
        for limit in limits {
            line(file, &input, limit);
        }
    }
}

/// One line. The Rust must say what the specification says, unless a word of the bank reaches 2^width.
fn line(file: &mut DataFile, input: &IndexInput, limit: usize) {
    assert!(limit <= LIMIT_MAX);
    let index = indexes::index(&input.rows, input.width, limit);
    let expected = spec::index(&input.rows, input.width, limit);
    let cut = index.all > limit;
    assert_eq!(
        (&index.pairs, &index.rows, cut),
        (&expected.pairs, &expected.rows, expected.cut)
    );
    let first_words: Vec<u64> = index.rows.iter().map(|row| row[0]).collect();
    assert_eq!(index.order, order_list(&first_words));
    let asked = [input.width.into(), limit as u64];
    let answer = [
        index.pairs.len() as u64,
        cut.into(),
        digest(index.pairs.as_flattened().iter().map(|&n| n as u64)),
        digest(index.rows.as_flattened().iter().copied()),
        digest(index.order.iter().map(|&slot| slot as u64)),
    ];
    file.line(ANSWERED, &[&input.bank.numbers(), &asked, &answer]);
}

/// Each with its limits.
fn index_inputs() -> Vec<(IndexInput, Vec<usize>)> {
    let inputs = &mut Inputs::of_kind(ANSWERED);
    let mut all = sheet();
    all.extend(small(inputs));
    all.extend(every_width(inputs));
    all.extend(other_widths(inputs));
    all
}

/// The banks of P1 and P2, and one whose words reach 2^width, with what is known of them.
fn sheet() -> Vec<(IndexInput, Vec<usize>)> {
    let of_sheet = |width, words: &[u64], index_width, all| {
        let bank = BankInput {
            num_vars: 1,
            width,
            points: one_variable(words),
            target: [0; 16],
        };
        let input = IndexInput::new(bank, index_width);
        assert_eq!(input.all_pairs(LIMIT_MAX), Some(all));
        let limits = input.limits(&[0, 1, 2, LIMIT_MAX]);
        (input, limits)
    };
    let p1 = of_sheet(1, &[0, 1], 1, 0);
    let p3 = of_sheet(2, &[0, 1, 2, 3], 2, 36);
    let first = spec::index(&p3.0.rows, 2, 1);
    assert_eq!(first.pairs, [[0, 1, 6]]);
    assert_eq!(first.rows, [repeated(&[1, 0])]);
    let eight: Vec<u64> = (0..8).collect();
    let raw = of_sheet(3, &eight, 2, 47);
    assert_eq!(access::index(&raw.0.rows, 2, LIMIT_MAX).all, 216);
    vec![p1, p3, raw]
}

/// Banks that have at least a pair and at most 499 of them.
fn small(inputs: &mut Inputs) -> Vec<(IndexInput, Vec<usize>)> {
    let mut all = Vec::new();
    for num_vars in 1..=6 {
        for turn in 0..SMALL_BANKS {
            let input = small_bank(inputs, num_vars);
            let limits = input.limits(&[turn % 3]);
            all.push((input, limits));
        }
    }
    all
}

fn small_bank(inputs: &mut Inputs, num_vars: u32) -> IndexInput {
    loop {
        let width = 1 + inputs.below(8) as u32;
        let input = IndexInput::new(BankInput::of_any_style(inputs, num_vars, width), width);
        if matches!(input.all_pairs(LIMIT_MAX - 1), Some(1..)) {
            return input;
        }
    }
}

/// The largest limit where the index is large, and here and there a small one.
fn every_width(inputs: &mut Inputs) -> Vec<(IndexInput, Vec<usize>)> {
    let of_width = |width| {
        let num_vars = 1 + width % 6;
        let input = IndexInput::new(BankInput::of_any_style(inputs, num_vars, width), width);
        let further = match width % 16 {
            0 => vec![0],
            5 => vec![1],
            10 => vec![2, LIMIT_MAX - 1],
            _ => vec![],
        };
        let limits = input.limits(&further);
        (input, limits)
    };
    (1..=64).map(of_width).collect()
}

/// Indexes of a lesser width (one less, half, any) and of a greater one.
fn other_widths(inputs: &mut Inputs) -> Vec<(IndexInput, Vec<usize>)> {
    let mut all = Vec::new();
    for num_vars in 1..=6 {
        for turn in 0..OTHER_WIDTHS {
            let width = 2 + inputs.below(if turn % 2 == 0 { 6 } else { 62 }) as u32;
            let greater = width + inputs.below(u64::from(65 - width)) as u32;
            let any = 1 + inputs.below(u64::from(width)) as u32;
            let index_width = [width - 1, width.div_ceil(2), any, greater][turn];
            let styles = (Points::OneApart, Target::Few);
            let bank = if turn < 2 && num_vars > 3 {
                BankInput::new(inputs, num_vars, width, styles)
            } else {
                BankInput::of_any_style(inputs, num_vars, width)
            };
            let input = IndexInput::new(bank, index_width);
            let limits = input.limits(&[]);
            all.push((input, limits));
        }
    }
    all
}

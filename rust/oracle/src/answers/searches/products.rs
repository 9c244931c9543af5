//! Lines of kind 16: product searches over built banks with their indexes, by the specification. The Rust's product
//! loop and its layer 1 are held against them as far as docs/DIFFERENCES.md has them alike.

use crate::access::{Cost, Row, Trial};

use super::PRODUCTS;
use crate::answers::data_file::DataFile;
use crate::answers::searched::{changed, p2, small_bank, Searched, LIMIT_MAX};
use crate::differences::known::{self, Input};
use crate::differences::Setting;
use crate::inputs::{repeated, Inputs};
use crate::made::banks::{largest, BankInput};
use crate::spec::gates::are_reduced;
use crate::spec::product::{anything_fits, is_used, product};

/// Banks with a small index, for each variable count.
const SMALL_BANKS: usize = 3;
/// Banks with a search at another width, for each variable count.
const OTHER_WIDTHS: usize = 3;
/// Searches of each kind that is drawn until it comes up.
const DRAWN: usize = 6;
/// How often a row is drawn anew for the answer that it is to have.
const DRAWS: usize = 30;

/// A line for a row searched for, of an index at the search's width.
fn line(file: &mut DataFile, searched: &Searched, row: Row) {
    ask_the_rust(&searched.setting, row);
    answered(file, searched, row);
}

fn answered(file: &mut DataFile, searched: &Searched, row: Row) {
    let (answer, a, b) = match searched.setting.try_everything(&row) {
        None => (0, 0, 0),
        Some(Trial::Atoms(a, b)) => (1, a, b),
        Some(Trial::AtomPair(a, pair)) => (2, a, pair),
    };
    searched.line(file, PRODUCTS, &row, &[answer, a as u64, b as u64]);
}

/// The Rust's layer 1 keeps the cheapest two atoms, and its product loop finds the first atom and pair, since no pair's first word
/// reaches 2^width; both to their ends keep the cheapest product, and one is shown exactly if any fits.
fn ask_the_rust(setting: &Setting, row: Row) {
    let written = setting.written();
    assert_eq!(setting.two_atoms(row), written.least_two_atoms(&row));
    assert!(are_reduced(&setting.index.rows, setting.width));
    assert_eq!(setting.product_loop(row), written.first_pair(&row));
    let least = written.try_everything(&row);
    assert_eq!(setting.least_product(row), least);
    let fits = anything_fits(&row, &setting.rows, &setting.index.rows, setting.width);
    assert_eq!(least.is_some(), fits);
}

pub fn lines(file: &mut DataFile) {
    sheet(file);
    for input in &known::MISSED {
        at_search_width(file, input);
        at_its_own_width(file, input);
    }
    for input in known::CHEAPER_PAIR.iter().chain(&known::LATER_PAIR) {
        let setting = at_search_width(file, input);
        assert_eq!(setting.try_everything(&input.row()), Some(input.answer));
    }
    let inputs = &mut Inputs::of_kind(PRODUCTS);
    small(file, inputs);
    every_width(file, inputs);
    other_widths(file, inputs);
    for used in [true, false] {
        drawn_lines(file, inputs, |setting, row| {
            hangs_on_order(setting, row, used)
        });
    }
    drawn_lines(file, inputs, is_one);
    drawn_lines(file, inputs, is_tied);
    drawn_lines(file, inputs, is_pair_before_atoms);
    drawn_lines(file, inputs, is_after_the_first);
    many(file, inputs);
}

/// P2's bank with all 36 pairs or fewer: products of atoms and of atoms and pairs, and rows that miss in one word. The row of
/// `v0 v0 *` is that of atom 8, which is dearer than what it is made of.
fn sheet(file: &mut DataFile) {
    for limit in [LIMIT_MAX, 36, 35, 1, 0] {
        let searched = Searched::new(p2(), 2, limit);
        let setting = &searched.setting;
        let pairs = setting.index.rows.len();
        assert_eq!((setting.rows.len(), pairs), (14, limit.min(36)));
        let squares = setting.rows[8];
        assert_eq!(squares, repeated(&[0, 1, 0, 1]));
        assert_eq!(setting.try_everything(&squares), Some(Trial::Atoms(4, 4)));
        let mut rows = vec![squares, changed(&squares, 15, 2), changed(&squares, 0, 2)];
        if let Some(last) = setting.index.rows.last() {
            let row = product(&setting.rows[3], last, 2);
            rows.extend([*last, row, changed(&row, 15, 1)]);
        }
        for row in rows {
            line(file, &searched, row);
        }
    }
}

/// A line for an input that shows a difference, with the whole index at the width of the search: D2 shows there, D1 doesn't.
fn at_search_width(file: &mut DataFile, input: &Input) -> Setting {
    let searched = Searched::new(input.bank(), input.width, LIMIT_MAX);
    let index = &searched.setting.index;
    assert_eq!(index.all, index.pairs.len());
    line(file, &searched, input.row());
    searched.setting
}

/// A line for an input that shows D1, with its index of a greater width than the search's.
fn at_its_own_width(file: &mut DataFile, input: &Input) {
    let searched = Searched::with_index(input.bank(), input.index_width, input.width, LIMIT_MAX);
    let setting = &searched.setting;
    assert_eq!(setting.try_everything(&input.row()), Some(input.answer));
    assert_eq!(setting.product_loop(input.row()), input.rust);
    answered(file, &searched, input.row());
}

/// The row that is searched for.
#[derive(Clone, Copy)]
enum Sought {
    /// The product of an atom and a pair; not of two atoms, if one is found.
    AtomAndPair,
    TwoAtoms,
    /// Such a product with one word changed.
    MissesFirst,
    MissesLast,
    MissesAny,
    Random,
    Constant,
    Zeros,
}

const SOUGHT: [Sought; 12] = [
    Sought::AtomAndPair,
    Sought::MissesLast,
    Sought::TwoAtoms,
    Sought::AtomAndPair,
    Sought::Random,
    Sought::AtomAndPair,
    Sought::MissesFirst,
    Sought::TwoAtoms,
    Sought::AtomAndPair,
    Sought::MissesAny,
    Sought::Constant,
    Sought::Zeros,
];

fn sought(inputs: &mut Inputs, setting: &Setting, style: Sought) -> Row {
    let width = setting.width;
    match style {
        Sought::AtomAndPair => atom_and_pair(inputs, setting),
        Sought::TwoAtoms => two_atoms(inputs, setting),
        Sought::MissesFirst => missing(inputs, setting, 0),
        Sought::MissesLast => missing(inputs, setting, 15),
        Sought::MissesAny => {
            let place = inputs.below(16) as usize;
            missing(inputs, setting, place)
        }
        Sought::Random => inputs.row(width),
        Sought::Constant => [inputs.word_of_width(width); 16],
        Sought::Zeros => [0; 16],
    }
}

fn two_atoms(inputs: &mut Inputs, setting: &Setting) -> Row {
    let (left, right) = (inputs.one_of(&setting.rows), inputs.one_of(&setting.rows));
    product(&left, &right, setting.width)
}

fn atom_and_pair(inputs: &mut Inputs, setting: &Setting) -> Row {
    let draw = || any_product(inputs, setting);
    let wanted = |answer| matches!(answer, Some(Trial::AtomPair(..)));
    drawn(setting, draw, wanted)
}

fn missing(inputs: &mut Inputs, setting: &Setting, place: usize) -> Row {
    let draw = || {
        let row = any_product(inputs, setting);
        let bit = inputs.below(setting.width.into());
        changed(&row, place, 1 << bit)
    };
    drawn(setting, draw, |answer| answer.is_none())
}

/// Of an atom and a pair, if there are pairs.
fn any_product(inputs: &mut Inputs, setting: &Setting) -> Row {
    if setting.index.rows.is_empty() {
        return two_atoms(inputs, setting);
    }
    let atom = inputs.one_of(&setting.rows);
    let pair = inputs.one_of(&setting.index.rows);
    product(&atom, &pair, setting.width)
}

/// The first row with such an answer, or if none is drawn the last one.
fn drawn(
    setting: &Setting,
    mut draw: impl FnMut() -> Row,
    wanted: impl Fn(Option<Trial>) -> bool,
) -> Row {
    let mut row = draw();
    for _ in 0..DRAWS {
        if wanted(setting.try_everything(&row)) {
            break;
        }
        row = draw();
    }
    row
}

/// Banks of small widths, each with a whole index and with one that is cut.
fn small(file: &mut DataFile, inputs: &mut Inputs) {
    let mut styles = SOUGHT.iter().copied().cycle();
    for num_vars in 1..=6 {
        for _ in 0..SMALL_BANKS {
            let bank = small_bank(inputs, num_vars);
            let width = bank.width;
            let whole = Searched::new(bank.clone(), width, LIMIT_MAX);
            let pairs = whole.setting.index.rows.len() as u64;
            let cut = Searched::new(bank, width, inputs.below(pairs) as usize);
            for searched in [whole, cut] {
                let style = styles.next().expect("they come round");
                let row = sought(inputs, &searched.setting, style);
                line(file, &searched, row);
            }
        }
    }
}

fn every_width(file: &mut DataFile, inputs: &mut Inputs) {
    for width in 1..=64 {
        let num_vars = if width <= 24 { 1 + width % 3 } else { 1 };
        let bank = BankInput::of_any_style(inputs, num_vars, width);
        let limit = inputs.one_of(&[LIMIT_MAX, LIMIT_MAX, 60, 7]);
        let searched = Searched::new(bank, width, limit);
        let style = SOUGHT[width as usize % SOUGHT.len()];
        let row = sought(inputs, &searched.setting, style);
        line(file, &searched, row);
    }
}

/// Searches at a lesser width than the bank's (one less, any), where its words may reach 2^width, and at a greater one.
fn other_widths(file: &mut DataFile, inputs: &mut Inputs) {
    for num_vars in 1..=6 {
        for turn in 0..OTHER_WIDTHS {
            let bank_width = 2 + inputs.below(if num_vars < 3 { 30 } else { 7 }) as u32;
            let any = 1 + inputs.below(u64::from(bank_width)) as u32;
            let greater = bank_width + inputs.below(u64::from(65 - bank_width)) as u32;
            let width = [bank_width - 1, any, greater][turn];
            let bank = BankInput::of_any_style(inputs, num_vars, bank_width);
            let searched = Searched::new(bank, width, LIMIT_MAX);
            for style in [Sought::AtomAndPair, inputs.one_of(&SOUGHT)] {
                let row = sought(inputs, &searched.setting, style);
                line(file, &searched, row);
            }
        }
    }
}

/// Lines for rows with a property that any product may have, over whole indexes; of a bank at most one.
fn drawn_lines(
    file: &mut DataFile,
    inputs: &mut Inputs,
    is_wanted: impl Fn(&Setting, &Row) -> bool,
) {
    let mut found = 0;
    while found < DRAWN {
        let num_vars = inputs.one_of(&[1, 2, 3]);
        let bank = small_bank(inputs, num_vars);
        let width = bank.width;
        let searched = Searched::new(bank, width, LIMIT_MAX);
        let mut rows = (0..DRAWS).map(|_| any_product(inputs, &searched.setting));
        if let Some(row) = rows.find(|row| is_wanted(&searched.setting, row)) {
            line(file, &searched, row);
            found += 1;
        }
    }
}

/// Several pairs of the least cost fit the answer's atom, and the first by first word is not the first by slot; the filter is used for
/// the one order.
fn hangs_on_order(setting: &Setting, row: &Row, used: bool) -> bool {
    let Some(answer) = setting.try_everything(row) else {
        return false;
    };
    let Trial::AtomPair(a, _) = answer else {
        return false;
    };
    let written = setting.written();
    let least = written.cost(answer);
    let is_least = |slot: &usize| {
        let trial = Trial::AtomPair(a, *slot);
        written.fits(trial, row) && written.cost(trial) == least
    };
    let by_word = setting.index.order.iter().copied().find(is_least);
    let by_slot = (0..setting.index.rows.len()).find(is_least);
    is_used(setting.rows[a][0], row[0], setting.width) == used && by_word != by_slot
}

/// One trial fits: an atom with itself, or an atom with a pair.
fn is_one(setting: &Setting, row: &Row) -> bool {
    setting.written().fitting(row).len() == 1
}

/// Three trials or more fit for the least cost, and some for another.
fn is_tied(setting: &Setting, row: &Row) -> bool {
    let costs = costs(setting, row);
    let least = costs.iter().min();
    let count = costs.iter().filter(|&cost| Some(cost) == least).count();
    count > 2 && count < costs.len()
}

fn costs(setting: &Setting, row: &Row) -> Vec<Cost> {
    let written = setting.written();
    let fitting = written.fitting(row).into_iter();
    fitting.map(|trial| written.cost(trial)).collect()
}

/// Two atoms fit, and an atom with a pair is cheaper.
fn is_pair_before_atoms(setting: &Setting, row: &Row) -> bool {
    let least = setting.try_everything(row);
    matches!(least, Some(Trial::AtomPair(..))) && setting.two_atoms(*row).is_some()
}

/// No two atoms fit, and the cheapest is not the first that does.
fn is_after_the_first(setting: &Setting, row: &Row) -> bool {
    let first = setting.written().first_pair(row);
    setting.two_atoms(*row).is_none() && setting.try_everything(row) != first
}

/// Rows that very many trials fit: zeros, a constant, and at small widths words that are 0 or 2^(width - 1).
fn many(file: &mut DataFile, inputs: &mut Inputs) {
    for (num_vars, width) in [(2, 3), (3, 4), (4, 2), (6, 2), (6, 64)] {
        line_for_many(file, inputs, (num_vars, width), 1000, |_, _| [0; 16]);
    }
    for (num_vars, width) in [(1, 4), (3, 3), (6, 4)] {
        line_for_many(file, inputs, (num_vars, width), 50, |inputs, _| {
            [1 + inputs.below(largest(width)); 16]
        });
    }
    for (num_vars, width) in [(2, 2), (3, 3), (3, 4), (4, 2)] {
        line_for_many(file, inputs, (num_vars, width), 100, |inputs, setting| {
            let half = [1 << (width - 1); 16];
            product(&half, &inputs.one_of(&setting.index.rows), width)
        });
    }
}

/// A line for the first row drawn that so many trials fit.
fn line_for_many(
    file: &mut DataFile,
    inputs: &mut Inputs,
    (num_vars, width): (u32, u32),
    least: usize,
    row: impl Fn(&mut Inputs, &Setting) -> Row,
) {
    loop {
        let bank = BankInput::of_any_style(inputs, num_vars, width);
        let searched = Searched::new(bank, width, LIMIT_MAX);
        if searched.setting.index.rows.is_empty() {
            continue;
        }
        let row = row(inputs, &searched.setting);
        if searched.setting.written().fitting(&row).len() >= least {
            return line(file, &searched, row);
        }
    }
}

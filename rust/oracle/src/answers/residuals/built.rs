//! Lines of kind 21: residual searches over built banks with their indexes.

use crate::access::{Completion, Part, Row};

use super::{answer, answers, numbers, BUILT};
use crate::answers::data_file::DataFile;
use crate::answers::searched::{changed, p2, small_bank, Searched, LIMIT_MAX};
use crate::differences::Setting;
use crate::inputs::Inputs;
use crate::made::banks::BankInput;
use crate::made::rows::late_one_of;
use crate::spec::gates::gate_row;
use crate::spec::residual::OUTER_GATES;

/// Banks with a small index, for each variable count.
const SMALL_BANKS: usize = 4;
/// Banks with a search at another width, for each variable count.
const OTHER_WIDTHS: usize = 3;
/// Rows that hang on the last pair, and rows that are found last.
const LAST_PAIRS: u32 = 6;
const LATE: u32 = 12;
/// Rows that are drawn, of which one with the answer wanted is taken.
const DRAWS: usize = 100;

pub fn lines(file: &mut DataFile) {
    sheet(file);
    let inputs = &mut Inputs::of_kind(BUILT);
    small(file, inputs);
    last_pairs(file, inputs);
    every_width(file, inputs);
    other_widths(file, inputs);
    late(file, inputs);
}

/// A line for a row searched for.
fn line(file: &mut DataFile, searched: &Searched, row: Row) {
    let found = found(&searched.setting, &row);
    searched.line(file, BUILT, &row, &numbers(found));
}

fn found(setting: &Setting, row: &Row) -> Option<Completion> {
    answer(row, &setting.rows, &setting.index.rows, setting.width)
}

/// P2's bank with all 36 pairs or fewer: under both gates an atom with itself, with the last atom and with the last pair, and the
/// last of these with its first or its last word changed.
fn sheet(file: &mut DataFile) {
    for limit in [LIMIT_MAX, 36, 35, 1, 0] {
        let searched = Searched::new(p2(), 2, limit);
        let Setting { rows, index, .. } = &searched.setting;
        let last = rows[rows.len() - 1];
        let other = *index.rows.last().unwrap_or(&last);
        for gate in OUTER_GATES {
            let row = gate_row(&rows[4], &other, gate, 2);
            line(file, &searched, gate_row(&rows[5], &rows[5], gate, 2));
            line(file, &searched, gate_row(&rows[5], &last, gate, 2));
            line(file, &searched, row);
            line(file, &searched, changed(&row, 0, 2));
            line(file, &searched, changed(&row, 15, 1));
        }
    }
}

/// The row that is searched for.
#[derive(Clone, Copy)]
enum Sought {
    /// The gate of an atom and another, or a pair; with such an answer, if one is found.
    TwoAtoms(usize),
    AtomAndPair(usize),
    /// Such a row with one word changed.
    MissesFirst,
    MissesLast,
    MissesAny,
    Random,
    Constant,
    Zeros,
}

const SOUGHT: [Sought; 14] = [
    Sought::TwoAtoms(2),
    Sought::AtomAndPair(3),
    Sought::MissesLast,
    Sought::AtomAndPair(2),
    Sought::TwoAtoms(3),
    Sought::AtomAndPair(3),
    Sought::MissesFirst,
    Sought::Random,
    Sought::AtomAndPair(2),
    Sought::TwoAtoms(3),
    Sought::MissesAny,
    Sought::Constant,
    Sought::AtomAndPair(3),
    Sought::Zeros,
];

fn sought(inputs: &mut Inputs, setting: &Setting, style: Sought) -> Row {
    match style {
        Sought::TwoAtoms(gate) => completed(inputs, setting, gate, false),
        Sought::AtomAndPair(gate) => completed(inputs, setting, gate, true),
        Sought::MissesFirst => missing(inputs, setting, 0),
        Sought::MissesLast => missing(inputs, setting, 15),
        Sought::MissesAny => {
            let place = inputs.below(16) as usize;
            missing(inputs, setting, place)
        }
        Sought::Random => inputs.row(setting.width),
        Sought::Constant => [inputs.word_of_width(setting.width); 16],
        Sought::Zeros => [0; 16],
    }
}

fn completed(inputs: &mut Inputs, setting: &Setting, gate: usize, pair: bool) -> Row {
    let draw = || gate_of_two(inputs, setting, gate, pair);
    let is_kind = |found: Completion| {
        let is_pair = matches!(found.other, Part::Pair(_));
        found.gate == gate && is_pair == pair
    };
    drawn(setting, draw, |found| found.is_some_and(is_kind))
}

fn missing(inputs: &mut Inputs, setting: &Setting, place: usize) -> Row {
    let draw = || {
        let gate = inputs.one_of(&OUTER_GATES);
        let row = gate_of_two(inputs, setting, gate, true);
        let bit = inputs.below(setting.width.into());
        changed(&row, place, 1 << bit)
    };
    drawn(setting, draw, |found| found.is_none())
}

/// Of an atom and another, or of an atom and a pair if there are pairs.
fn gate_of_two(inputs: &mut Inputs, setting: &Setting, gate: usize, pair: bool) -> Row {
    let others = if pair && !setting.index.rows.is_empty() {
        &setting.index.rows
    } else {
        &setting.rows
    };
    let atom = late_one_of(inputs, &setting.rows);
    let other = late_one_of(inputs, others);
    gate_row(&atom, &other, gate, setting.width)
}

/// Of some rows the first with such an answer, or if there is none the first.
fn drawn(
    setting: &Setting,
    draw: impl FnMut() -> Row,
    wanted: impl Fn(Option<Completion>) -> bool,
) -> Row {
    let tries = tries(setting, draw);
    let first = tries.iter().find(|&&(_, found)| wanted(found));
    first.unwrap_or(&tries[0]).0
}

/// Rows with their answers.
fn tries(setting: &Setting, mut draw: impl FnMut() -> Row) -> Vec<(Row, Option<Completion>)> {
    let rows: Vec<Row> = (0..DRAWS).map(|_| draw()).collect();
    let found = answers(&rows, &setting.rows, &setting.index.rows, setting.width);
    rows.into_iter().zip(found).collect()
}

/// Banks of small widths, each with a whole index and with one that is cut.
fn small(file: &mut DataFile, inputs: &mut Inputs) {
    let mut styles = SOUGHT.iter().copied().cycle();
    for num_vars in 1..=6 {
        for _ in 0..SMALL_BANKS {
            let bank = small_bank(inputs, num_vars);
            let width = bank.width;
            let whole = Searched::new(bank.clone(), width, LIMIT_MAX);
            let pairs = whole.setting.index.rows.len() as u64;
            let cut = Searched::new(bank, width, inputs.below(pairs) as usize);
            for searched in [whole, cut] {
                let style = styles.next().expect("they come round");
                let row = sought(inputs, &searched.setting, style);
                line(file, &searched, row);
            }
        }
    }
}

/// A row that is first completed by the last pair of a whole index, then the same without that pair.
fn last_pairs(file: &mut DataFile, inputs: &mut Inputs) {
    let mut count = 0;
    while count < LAST_PAIRS {
        let bank = small_bank(inputs, 1 + count % 3);
        let width = bank.width;
        let whole = Searched::new(bank.clone(), width, LIMIT_MAX);
        let last = whole.setting.index.rows.len() - 1;
        let gate = OUTER_GATES[count as usize % 2];
        let atom = late_one_of(inputs, &whole.setting.rows);
        let row = gate_row(&atom, &whole.setting.index.rows[last], gate, width);
        let shown = found(&whole.setting, &row);
        if shown.is_some_and(|shown| shown.gate == gate && shown.other == Part::Pair(last)) {
            line(file, &whole, row);
            line(file, &Searched::new(bank, width, last), row);
            count += 1;
        }
    }
}

fn every_width(file: &mut DataFile, inputs: &mut Inputs) {
    for width in 1..=64 {
        let num_vars = if width <= 24 { 1 + width % 3 } else { 1 };
        let bank = BankInput::of_any_style(inputs, num_vars, width);
        let limit = inputs.one_of(&[LIMIT_MAX, LIMIT_MAX, 60, 7]);
        let searched = Searched::new(bank, width, limit);
        let style = SOUGHT[width as usize % SOUGHT.len()];
        let row = sought(inputs, &searched.setting, style);
        line(file, &searched, row);
    }
}

/// Searches at a lesser width than the bank's (one less, any), where its words may reach 2^width, and at a greater one, each with an
/// index at the search's width and with one at the bank's.
fn other_widths(file: &mut DataFile, inputs: &mut Inputs) {
    for num_vars in 1..=6 {
        for turn in 0..OTHER_WIDTHS {
            let bank_width = 2 + inputs.below(if num_vars < 3 { 30 } else { 7 }) as u32;
            let any = 1 + inputs.below(u64::from(bank_width)) as u32;
            let greater = bank_width + inputs.below(u64::from(65 - bank_width)) as u32;
            let width = [bank_width - 1, any, greater][turn];
            let bank = BankInput::of_any_style(inputs, num_vars, bank_width);
            let other = Searched::with_index(bank.clone(), bank_width, width, LIMIT_MAX);
            let searched = Searched::new(bank, width, LIMIT_MAX);
            for style in [Sought::AtomAndPair(2), inputs.one_of(&SOUGHT)] {
                let row = sought(inputs, &searched.setting, style);
                line(file, &searched, row);
            }
            let row = sought(inputs, &other.setting, Sought::AtomAndPair(2));
            line(file, &other, row);
        }
    }
}

/// Of some sums the one that is found last.
fn late(file: &mut DataFile, inputs: &mut Inputs) {
    for turn in 0..LATE {
        let width = 2 + inputs.below(15) as u32;
        let bank = BankInput::of_any_style(inputs, 1 + turn % 6, width);
        let searched = Searched::new(bank, width, LIMIT_MAX);
        let setting = &searched.setting;
        let tries = tries(setting, || gate_of_two(inputs, setting, 3, turn % 2 == 0));
        let place =
            |(_, found): &(Row, Option<Completion>)| found.map(|found| (found.gate, found.atom));
        let (row, _) = tries.into_iter().max_by_key(place).expect("there is a try");
        line(file, &searched, row);
    }
}

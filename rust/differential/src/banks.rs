//! Banks: all five arrays, and rows found and handed back.

use oracle::access::{self, AtomView, Row};
use oracle::inputs::Inputs;
use oracle::made::banks::BankInput;
use oracle::spec::bank::ARRAY_LENGTHS;
use simjaldek::lent::{self, Atoms};
use simjaldek::AtomSlot;

use crate::buffers::{extra, flat, flat_points, longer, BankBuffers};
use crate::report::{Kind, Report};

/// Rows looked for in a bank.
const FOUND_ROWS: usize = 4;

/// A bank of both sides; the Rust's is given back.
pub fn compare(inputs: &mut Inputs, report: &mut Report, input: &BankInput) -> Vec<AtomView> {
    let atoms = access::bank(input.num_vars, input.width, &input.points, input.target);
    let lengths = ARRAY_LENGTHS.map(|length| length + extra(inputs) as u64);
    let mut buffers = BankBuffers::new(inputs, lengths);
    let mut expected = buffers.clone();
    let points = flat_points(inputs, &input.points);
    let target = longer(inputs, &input.target);
    let built = lent::build_bank(
        input.num_vars,
        input.width,
        &points,
        &target,
        buffers.lend(),
    );
    expected.write(&atoms);
    expected.work.clone_from(&buffers.work);
    let theirs = (Ok(atoms.len()), expected);
    report.reach("banks of more than 300 atoms", atoms.len() > 300);
    report.compare(Kind::Bank, &input.numbers(), &(built, buffers), &theirs);
    atoms
}

/// Rows looked for, mostly held ones, and handed back.
pub fn compare_rows(inputs: &mut Inputs, report: &mut Report, atoms: &[AtomView], width: u32) {
    let rows: Vec<Row> = atoms.iter().map(|atom| atom.row).collect();
    let lent_rows = flat(inputs, &rows);
    let lent_atoms = Atoms {
        count: rows.len(),
        rows: &lent_rows,
    };
    for _ in 0..FOUND_ROWS {
        let row = wanted_row(inputs, &rows, width);
        let held = rows.iter().position(|held| *held == row);
        let theirs = Ok(held.map(|slot| AtomSlot(slot as u32)));
        let found = lent::find_row(width, lent_atoms, &longer(inputs, &row));
        report.compare(Kind::FindRow, &(width, &rows, row), &found, &theirs);
    }
    let slot = inputs.below(rows.len() as u64) as usize;
    let handed = lent::atom_row(lent_atoms, AtomSlot(slot as u32));
    report.compare(Kind::AtomRow, &(&rows, slot), &handed, &Ok(&rows[slot][..]));
}

/// A held row, one that differs in one word, or any.
fn wanted_row(inputs: &mut Inputs, rows: &[Row], width: u32) -> Row {
    let mut row = inputs.one_of(rows);
    match inputs.below(4) {
        0 => row[inputs.below(16) as usize] = inputs.word_of_width(width),
        1 => row = inputs.row(width),
        _ => {}
    }
    row
}

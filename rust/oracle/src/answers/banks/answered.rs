//! Lines of kind 11: the Rust's banks, each held against the specification's.

use crate::access::AtomView;

use super::made::{BankInput, POINT_STYLES, TARGET_STYLES};
use super::ANSWERED;
use crate::answers::data_file::DataFile;
use crate::digest::digest;
use crate::inputs::{one_variable, repeated, Inputs};
use crate::spec::formulas::{CONSTANT, MUL, NOT, VARIABLE};

/// Places for tokens of an atom.
const ATOM_TOKENS: usize = 6;
const UNUSED_OP: u64 = 255;
/// Inputs at each width.
const EACH_WIDTH: usize = 4;

pub fn lines(file: &mut DataFile) {
    for input in bank_inputs() {
        let atoms = input.bank();
        let digests = digests(&atoms);
        let count = [atoms.len() as u64];
        file.line(ANSWERED, &[&input.numbers(), &count, &digests]);
    }
}

/// Of the lengths, opcodes, operands, costs and rows.
fn digests(atoms: &[AtomView]) -> [u64; 5] {
    let costs = atoms.iter().flat_map(|atom| atom.cost);
    [
        digest(atoms.iter().map(|atom| atom.formula.ops.len() as u64)),
        digest(atoms.iter().flat_map(padded_ops)),
        digest(atoms.iter().flat_map(padded_operands)),
        digest(costs.map(u64::from)),
        digest(atoms.iter().flat_map(|atom| atom.row)),
    ]
}

fn padded_ops(atom: &AtomView) -> [u64; ATOM_TOKENS] {
    let ops = &atom.formula.ops;
    assert!(ops.len() <= ATOM_TOKENS);
    std::array::from_fn(|place| ops.get(place).map_or(UNUSED_OP, |&op| op.into()))
}

fn padded_operands(atom: &AtomView) -> [u64; ATOM_TOKENS] {
    let operands = &atom.formula.operands;
    std::array::from_fn(|place| operands.get(place).copied().unwrap_or(0))
}

fn bank_inputs() -> Vec<BankInput> {
    let inputs = &mut Inputs::of_kind(ANSWERED);
    let mut all = sheet();
    all.extend(every_width(inputs));
    all.extend(every_count(inputs));
    all
}

/// P1, P2, P9 (first with a target of zeros) and P10, with what the sheet says of them.
fn sheet() -> Vec<BankInput> {
    let ascending: Vec<u64> = (0..16).collect();
    let mut p10_target = [0; 16];
    p10_target[..7].fill(1);
    p10_target[7] = 4;
    let of_sheet = |width, words: &[u64], target| BankInput {
        num_vars: 1,
        width,
        points: one_variable(words),
        target,
    };
    let p1 = of_sheet(1, &[0, 1], [0; 16]);
    let p2 = of_sheet(2, &[0, 1, 2, 3], [0; 16]);
    let p9_before = of_sheet(8, &ascending, [0; 16]);
    let p9 = of_sheet(8, &ascending, [254; 16]);
    let p10 = of_sheet(8, &ascending, p10_target);
    check_p1_p2(&p1.bank(), &p2.bank());
    check_p9_p10(&p9_before.bank(), &p9.bank(), &p10.bank());
    vec![p1, p2, p9_before, p9, p10]
}

fn check_p1_p2(p1: &[AtomView], p2: &[AtomView]) {
    let costs: Vec<_> = p1.iter().map(|atom| atom.cost).collect();
    assert_eq!(costs, [[1, 0, 1], [1, 0, 1], [1, 0, 1], [2, 0, 2]]);
    assert_eq!(p1[3].formula.ops, [VARIABLE, NOT]);
    assert_eq!(p2.len(), 14);
    assert_eq!(p2[13].formula.ops, [VARIABLE, VARIABLE, MUL, NOT]);
    assert_eq!(p2[13].row, repeated(&[3, 2]));
}

fn check_p9_p10(p9_before: &[AtomView], p9: &[AtomView], p10: &[AtomView]) {
    let slot = |atoms: &[AtomView], word| atoms.iter().position(|atom| atom.row == [word; 16]);
    let held = slot(p9, 254).expect("seeded");
    assert_eq!(slot(p9_before, 254), Some(held));
    assert_eq!(p9_before[held].formula.ops, [CONSTANT, NOT]);
    assert_eq!(p9[held].formula.ops, [CONSTANT]);
    let seeded = [5, 1, 4].map(|word| slot(p10, word).is_some());
    assert_eq!(seeded, [true, true, false]);
}

/// Every style of points with every style of target, some more than once.
fn every_width(inputs: &mut Inputs) -> Vec<BankInput> {
    let of_turn = |turn: usize| {
        let width = 1 + (turn / EACH_WIDTH) as u32;
        let points = POINT_STYLES[turn % POINT_STYLES.len()];
        let target = TARGET_STYLES[turn % TARGET_STYLES.len()];
        let num_vars = 1 + inputs.below(6) as u32;
        BankInput::new(inputs, num_vars, width, (points, target))
    };
    (0..64 * EACH_WIDTH).map(of_turn).collect()
}

/// For each variable count small widths and some others.
fn every_count(inputs: &mut Inputs) -> Vec<BankInput> {
    let mut all = Vec::new();
    for num_vars in 1..=6 {
        for width in [1, 2, 3, 3, 4, 5, 8, 64] {
            all.push(BankInput::of_any_style(inputs, num_vars, width));
        }
    }
    all
}

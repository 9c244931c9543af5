//! The bank by a list of atoms: each formula in turn, its row looked for from the first atom on.

use crate::access::{AtomView, Formula, Row};

use super::formulas::{
    cost, value, ADD, AND, CONSTANT, MUL, NEG, NOT, OR, VARIABLE, VARS_MAX, XOR,
};
use super::refusals::{NONE, REFUSED_LENGTH, REFUSED_VARS, REFUSED_WIDTH, REFUSED_WORD};

pub const ATOMS_MAX: usize = 479;
/// The places for an atom's tokens.
pub const ATOM_TOKENS: usize = 6;
/// Of the target's nonzero words, so many are seeded.
const SEED_WORDS: usize = 7;

/// The atoms over sixteen points, with the seeds of a target row.
pub fn bank(num_vars: u32, width: u32, points: &[Vec<u64>], target: &Row) -> Vec<AtomView> {
    let mut bank = Bank {
        width,
        points,
        atoms: Vec::new(),
    };
    bank.push_all(stock(num_vars, width));
    for slot in 0..bank.atoms.len() {
        bank.push_all(turn(&bank.atoms[slot].formula));
    }
    bank.push_all(seeds(target));
    bank.atoms
}

/// A bank that is being built.
struct Bank<'a> {
    width: u32,
    points: &'a [Vec<u64>],
    atoms: Vec<AtomView>,
}

impl Bank<'_> {
    fn push_all(&mut self, formulas: Vec<Formula>) {
        for formula in formulas {
            self.push(formula);
        }
    }

    /// A new row is a new atom; a row that is held keeps its slot, and its formula unless the new one costs less.
    fn push(&mut self, formula: Formula) {
        let atom = AtomView {
            cost: cost(&formula),
            row: row(&formula, self.width, self.points),
            formula,
        };
        match self.atoms.iter_mut().find(|held| held.row == atom.row) {
            None => self.atoms.push(atom),
            Some(held) => {
                if atom.cost < held.cost {
                    *held = atom;
                }
            }
        }
    }
}

/// The values of a formula at sixteen points.
pub fn row(formula: &Formula, width: u32, points: &[Vec<u64>]) -> Row {
    std::array::from_fn(|place| value(formula, width, &points[place]))
}

/// The constants, the variables with Neg and Not, the gates of two variables, the differences of two.
fn stock(num_vars: u32, width: u32) -> Vec<Formula> {
    let variables = 0..u64::from(num_vars);
    let largest = ((1u128 << width) - 1) as u64;
    let mut formulas = [0, 1, 2, largest].map(constant).to_vec();
    for i in variables.clone() {
        formulas.push(postfix(&[(VARIABLE, i)]));
        formulas.push(postfix(&[(VARIABLE, i), (NEG, 0)]));
        formulas.push(postfix(&[(VARIABLE, i), (NOT, 0)]));
    }
    for i in variables.clone() {
        for j in i..u64::from(num_vars) {
            for gate in [AND, OR, XOR, ADD, MUL] {
                formulas.push(postfix(&[(VARIABLE, i), (VARIABLE, j), (gate, 0)]));
            }
        }
    }
    for i in variables.clone() {
        for j in variables.clone().filter(|&j| j != i) {
            formulas.push(postfix(&[(VARIABLE, i), (VARIABLE, j), (NEG, 0), (ADD, 0)]));
        }
    }
    formulas
}

/// Neg and Not of a formula.
fn turn(formula: &Formula) -> Vec<Formula> {
    let under = |op| {
        let mut formula = formula.clone();
        formula.push(op, 0);
        formula
    };
    vec![under(NEG), under(NOT)]
}

/// The OR of the target row, then its first nonzero words, repeats counted; never zero.
fn seeds(target: &Row) -> Vec<Formula> {
    let all_bits = target.iter().fold(0, |bits, word| bits | word);
    let nonzero = target.iter().copied().filter(|&word| word != 0);
    std::iter::once(all_bits)
        .filter(|&word| word != 0)
        .chain(nonzero.take(SEED_WORDS))
        .map(constant)
        .collect()
}

fn constant(word: u64) -> Formula {
    postfix(&[(CONSTANT, word)])
}

fn postfix(tokens: &[(u8, u64)]) -> Formula {
    let mut formula = Formula::default();
    for &(op, operand) in tokens {
        formula.push(op, operand);
    }
    formula
}

/// What is handed to the bank build, good or not.
#[derive(Clone)]
pub struct Handed {
    pub num_vars: u64,
    pub width: u64,
    pub points: [[u64; VARS_MAX as usize]; 16],
    pub target: Row,
    /// How long the lent arrays are: lengths, opcodes, operands, costs, rows, work area.
    pub array_lengths: [u64; 6],
}

/// How long they must be.
pub const ARRAY_LENGTHS: [u64; 6] = [479, 2874, 2874, 1437, 7664, 1916];

impl Handed {
    /// The table for the bank build: 1, 2, 4, 5, the least that applies.
    pub fn refusal(&self) -> u64 {
        let mut lengths = self.array_lengths.iter().zip(ARRAY_LENGTHS);
        if !(1..=VARS_MAX).contains(&self.num_vars) {
            REFUSED_VARS
        } else if !(1..=64).contains(&self.width) {
            REFUSED_WIDTH
        } else if lengths.any(|(&length, needed)| length < needed) {
            REFUSED_LENGTH
        } else if self.words().any(|word| u128::from(word) >> self.width != 0) {
            REFUSED_WORD
        } else {
            NONE
        }
    }

    /// The words that are read: of each point those of the variables, and the target's.
    fn words(&self) -> impl Iterator<Item = u64> + '_ {
        let of_variables = |point: &'_ [u64; VARS_MAX as usize]| {
            let words = *point;
            words.into_iter().take(self.num_vars as usize)
        };
        let points = self.points.iter().flat_map(of_variables);
        points.chain(self.target)
    }
}

//! Lines of kind 23: residual searches over rows that stand in the line. The named cases state their answers by hand.

use crate::access::{Completion, Part, Row};

use super::{answer, numbers, LENT};
use crate::answers::data_file::{DataFile, NUMBERS_MAX};
use crate::answers::searched::changed;
use crate::inputs::Inputs;
use crate::made::banks::largest;
use crate::made::rows::{few_rows, few_words, late_one_of, near, near_one_of};
use crate::spec::gates::gate_row;
use crate::spec::residual::OUTER_GATES;

const XOR: usize = 2;
const ADD: usize = 3;

/// Places of a row that is made to differ from a residual.
const CHANGED_PLACES: [usize; 5] = [0, 1, 7, 14, 15];
/// Lines of rows of few kinds, for each answer.
const OF_EACH_ANSWER: usize = 6;
/// The most atoms and pairs of such a line.
const ATOMS_MAX: u64 = 12;
const PAIRS_MAX: u64 = 16;

/// The rows of a line.
struct Lent {
    width: u32,
    atoms: Vec<Row>,
    pairs: Vec<Row>,
    target: Row,
}

impl Lent {
    /// Rows that are one word sixteen times.
    fn of_words(width: u32, atoms: &[u64], pairs: &[u64], target: u64) -> Self {
        let rows = |words: &[u64]| words.iter().map(|&word| [word; 16]).collect();
        Lent {
            width,
            atoms: rows(atoms),
            pairs: rows(pairs),
            target: [target; 16],
        }
    }

    fn answer(&self) -> Option<Completion> {
        answer(&self.target, &self.atoms, &self.pairs, self.width)
    }

    fn line(&self, file: &mut DataFile) {
        assert!(self.target.iter().all(|&word| word <= largest(self.width)));
        let counts = [self.width as usize, self.atoms.len(), self.pairs.len()];
        let counts = counts.map(|number| number as u64);
        let (atoms, pairs) = (self.atoms.as_flattened(), self.pairs.as_flattened());
        let answer = numbers(self.answer());
        assert!(1 + 3 + atoms.len() + pairs.len() + 16 + 4 <= NUMBERS_MAX);
        file.line(LENT, &[&counts, atoms, pairs, &self.target, &answer]);
    }

    /// A line whose answer is stated.
    fn case(self, file: &mut DataFile, stated: Option<Completion>) {
        assert_eq!(self.answer(), stated);
        self.line(file);
    }
}

pub fn lines(file: &mut DataFile) {
    for (width, atoms, pairs, target, stated) in CASES {
        Lent::of_words(width, atoms, pairs, target).case(file, stated);
    }
    for place in CHANGED_PLACES {
        one_word_changed(file, place);
    }
    few_kinds(file);
}

const fn atoms(gate: usize, atom: usize, other: usize) -> Option<Completion> {
    let other = Part::Atom(other);
    Some(Completion { gate, atom, other })
}

const fn pair(gate: usize, atom: usize, other: usize) -> Option<Completion> {
    let other = Part::Pair(other);
    Some(Completion { gate, atom, other })
}

/// A width, the words of atoms and pairs, the target's word, and the answer.
type Case = (u32, &'static [u64], &'static [u64], u64, Option<Completion>);

const TOP: u64 = 1 << 63;

const CASES: [Case; 50] = [
    // words that reach 2^w: what completes them is below 2^w, and they complete nothing
    (8, &[257, 4], &[], 5, atoms(XOR, 0, 1)),
    (8, &[257, 260], &[], 5, None),
    (8, &[257, 260, 4], &[], 5, atoms(XOR, 0, 2)),
    (9, &[257, 4], &[], 5, None),
    (8, &[257], &[4], 5, pair(XOR, 0, 0)),
    (8, &[257], &[260], 5, None),
    (8, &[257], &[260, 4], 5, pair(XOR, 0, 1)),
    (8, &[1], &[260], 5, None),
    (8, &[1, 260], &[], 5, atoms(XOR, 1, 0)),
    (8, &[256 + 250], &[11], 5, pair(ADD, 0, 0)),
    (63, &[TOP + 1], &[4], 5, pair(XOR, 0, 0)),
    (63, &[TOP + 1], &[TOP + 4], 5, None),
    (64, &[TOP + 1], &[4], 5, None),
    (1, &[2], &[], 0, None),
    (1, &[2, 0], &[], 0, atoms(XOR, 0, 1)),
    (1, &[2], &[0], 0, pair(XOR, 0, 0)),
    (2, &[6], &[0], 0, None),
    // the same row in several slots
    (8, &[1, 4, 4, 4], &[], 5, atoms(XOR, 0, 1)),
    (8, &[4, 4, 1, 1], &[], 5, atoms(XOR, 0, 2)),
    (8, &[1], &[9, 4, 4], 5, pair(XOR, 0, 1)),
    (8, &[9, 9, 1, 1], &[9, 4, 4], 5, pair(XOR, 2, 1)),
    (8, &[3, 3], &[2, 2], 5, pair(ADD, 0, 0)),
    (8, &[7; 14], &[2; 14], 5, pair(XOR, 0, 0)),
    (8, &[7; 14], &[3; 14], 5, None),
    // an atom with itself
    (8, &[9, 0], &[], 0, atoms(XOR, 0, 0)),
    (8, &[3], &[], 6, atoms(ADD, 0, 0)),
    (8, &[128], &[], 0, atoms(XOR, 0, 0)),
    // b below a: 4 completes 257, and 257 isn't the 1 that completes 4
    (8, &[4, 257], &[], 5, atoms(XOR, 1, 0)),
    (8, &[4, 257], &[1], 5, pair(XOR, 0, 0)),
    (8, &[9, 4, 257], &[4], 5, atoms(XOR, 2, 1)),
    (8, &[11, 256 + 250], &[], 5, atoms(ADD, 1, 0)),
    // Xor before Add, also where Add has a lesser atom; equal residuals count for Xor
    (8, &[3, 2, 7], &[], 5, atoms(XOR, 1, 2)),
    (8, &[3, 9], &[2, 12], 5, pair(XOR, 1, 1)),
    (8, &[3, 2], &[6], 5, pair(XOR, 0, 0)),
    (8, &[4, 1], &[1], 5, atoms(XOR, 0, 1)),
    (1, &[0, 1], &[], 1, atoms(XOR, 0, 1)),
    // the bank before the index, a lesser atom before both
    (8, &[1, 4], &[4], 5, atoms(XOR, 0, 1)),
    (8, &[1, 2, 7], &[4], 5, pair(XOR, 0, 0)),
    (8, &[3, 1, 4], &[2], 5, atoms(XOR, 1, 2)),
    (8, &[250, 3, 2], &[11], 5, pair(ADD, 0, 0)),
    // differences below 0
    (8, &[250], &[11], 5, pair(ADD, 0, 0)),
    (64, &[u64::MAX], &[6], 5, pair(ADD, 0, 0)),
    (64, &[6], &[u64::MAX], 5, pair(ADD, 0, 0)),
    (3, &[7], &[2], 1, pair(ADD, 0, 0)),
    // the first and the last slots
    (8, &[5, 40, 80, 120, 160], &[3, 7, 19], 8, pair(ADD, 0, 0)),
    (8, &[5, 40, 80, 120, 160], &[3, 7, 19], 179, pair(XOR, 4, 2)),
    (8, &[5, 40, 80, 120, 163], &[3, 7, 19], 182, pair(ADD, 4, 2)),
    (8, &[5, 40, 80, 120, 163], &[3, 7, 19], 70, atoms(ADD, 4, 4)),
    // no atoms
    (8, &[], &[5, 0], 5, None),
    (8, &[], &[], 0, None),
];

/// A row that differs from the residual in one word, before the right one and alone; in the bank and in the index, under both gates; alone
/// also in a bit from 2^w up.
fn one_word_changed(file: &mut DataFile, place: usize) {
    for (gate, first, right) in [(XOR, 7, 2), (ADD, 250, 11)] {
        let wrong = changed(&[right; 16], place, 1);
        let mut in_bank = Lent::of_words(8, &[first, 0, right], &[], 5);
        in_bank.atoms[1] = wrong;
        in_bank.case(file, atoms(gate, 0, 2));
        let mut in_index = Lent::of_words(8, &[first], &[0, right], 5);
        in_index.pairs[0] = wrong;
        in_index.case(file, pair(gate, 0, 1));
    }
    for bits in [1, 256] {
        let mut alone = Lent::of_words(8, &[7], &[0], 5);
        alone.pairs[0] = changed(&[2; 16], place, bits);
        alone.case(file, None);
    }
}

/// As many lines of each answer over rows of few kinds.
fn few_kinds(file: &mut DataFile) {
    let inputs = &mut Inputs::of_kind(LENT);
    for wanted in [[0, 0], [1, 2], [1, 3], [2, 2], [2, 3]] {
        let mut count = 0;
        while count < OF_EACH_ANSWER {
            let lent = few(inputs);
            if numbers(lent.answer())[..2] == wanted {
                lent.line(file);
                count += 1;
            }
        }
    }
}

/// Atoms and pairs out of a few rows, words beyond the width here and there; the target is a sum, near one, or any of such rows.
fn few(inputs: &mut Inputs) -> Lent {
    let width = 1 + inputs.below(6) as u32;
    let beyond = inputs.below(2) as u32;
    let rows = few_rows(inputs, width + beyond);
    let [count, pairs] = [1 + inputs.below(ATOMS_MAX), inputs.below(PAIRS_MAX + 1)];
    let atoms: Vec<Row> = (0..count).map(|_| near_one_of(inputs, &rows)).collect();
    let pairs: Vec<Row> = (0..pairs).map(|_| near_one_of(inputs, &rows)).collect();
    let gate = inputs.one_of(&OUTER_GATES);
    let others = if pairs.is_empty() { &atoms } else { &pairs };
    let (a, b) = (late_one_of(inputs, &atoms), late_one_of(inputs, others));
    let sum = gate_row(&a, &b, gate, width);
    let target = match inputs.below(6) {
        0 => near(inputs, sum, width),
        1 => few_words(inputs, width),
        _ => sum,
    };
    Lent {
        width,
        atoms,
        pairs,
        target,
    }
}

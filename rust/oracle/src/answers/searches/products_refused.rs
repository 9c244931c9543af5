//! Lines of kind 17: what the specification's table refuses of the product search, and close neighbours that it does not.
//! The Rust is not asked. Each case states its refusal by hand, and the table must say the same.

use super::{zero_pairs, PRODUCTS_REFUSED};
use crate::answers::data_file::DataFile;
use crate::answers::faults::{faulty, Fault, ARRAY_MAX, BAD_WIDTHS, HUGE, TOO_LARGE};
use crate::made::banks::largest;
use crate::spec::bank::{ATOMS_MAX, ATOM_TOKENS};
use crate::spec::formulas::{ADD, CONSTANT, NEG, NOT, VARIABLE};
use crate::spec::index::PAIRS_MAX;
use crate::spec::lent::{Formulas, ProductSearch};
use crate::spec::refusals::{
    NONE, REFUSED_COUNT, REFUSED_FORMULA, REFUSED_LENGTH, REFUSED_ORDER, REFUSED_WIDTH,
    REFUSED_WORD,
};

/// What stands where an atom has no token.
const NO_TOKEN: u8 = 255;
/// Another formula is only put in place of one of so many atoms, other words of so many pairs.
const ATOMS: u64 = ATOMS_MAX as u64;
const PAIRS: u64 = ARRAY_MAX / 16;
/// A slot that no line reads.
const NO_SLOT: u64 = 1000;

/// The numbers of a line.
#[derive(Clone)]
struct Handed {
    width: u64,
    count: u64,
    lengths: u64,
    ops: u64,
    operands: u64,
    atoms: u64,
    pairs: u64,
    words: u64,
    listed: u64,
    order: u64,
    word: u64,
    swap: u64,
    atom: Atom,
    pair: Pair,
}

/// An atom of another formula: its recorded length and its first token.
#[derive(Clone, Copy)]
struct Atom {
    slot: u64,
    length: u32,
    op: u8,
    operand: u64,
}

/// A pair of other words.
#[derive(Clone, Copy)]
struct Pair {
    slot: u64,
    words: [u32; 3],
}

impl Handed {
    fn refusal(&self) -> u64 {
        let mut target = [0; 16];
        target[15] = self.word;
        let (lengths, ops, operands) = self.formulas();
        let words = self.words();
        let search = ProductSearch {
            width: self.width,
            count: self.count,
            formulas: Formulas {
                lengths: &lengths[..self.lengths as usize],
                ops: &ops[..self.ops as usize],
                operands: &operands[..self.operands as usize],
            },
            atoms: self.atoms,
            pairs: zero_pairs(self.pairs, self.listed, self.order, self.swap),
            words: &words[..self.words as usize],
            target,
        };
        search.refusal()
    }

    /// The constant 0, in each atom but one.
    fn formulas(&self) -> (Vec<u32>, Vec<u8>, Vec<u64>) {
        let mut lengths = vec![1; ARRAY_MAX as usize];
        let mut ops = vec![NO_TOKEN; ARRAY_MAX as usize];
        let mut operands = vec![0; ARRAY_MAX as usize];
        ops.iter_mut()
            .step_by(ATOM_TOKENS)
            .for_each(|op| *op = CONSTANT);
        if self.atom.slot < ATOMS {
            let slot = self.atom.slot as usize;
            lengths[slot] = self.atom.length;
            ops[ATOM_TOKENS * slot] = self.atom.op;
            operands[ATOM_TOKENS * slot] = self.atom.operand;
        }
        (lengths, ops, operands)
    }

    /// And of atoms 0 and 0, in each pair but one.
    fn words(&self) -> Vec<u32> {
        let mut words = vec![0; ARRAY_MAX as usize];
        if self.pair.slot < PAIRS {
            words[3 * self.pair.slot as usize..][..3].copy_from_slice(&self.pair.words);
        }
        words
    }

    /// The lengths of the arrays.
    fn arrays(&mut self) -> [&mut u64; ARRAYS] {
        [
            &mut self.lengths,
            &mut self.ops,
            &mut self.operands,
            &mut self.atoms,
            &mut self.words,
            &mut self.listed,
            &mut self.order,
        ]
    }

    /// The same with another formula.
    fn with_atom(&self, slot: u64, length: u32, op: u8, operand: u64) -> Self {
        let atom = Atom {
            slot,
            length,
            op,
            operand,
        };
        Handed {
            atom,
            ..self.clone()
        }
    }

    /// The same with other words of a pair.
    fn with_pair(&self, slot: u64, words: [u32; 3]) -> Self {
        let pair = Pair { slot, words };
        Handed {
            pair,
            ..self.clone()
        }
    }
}

const ARRAYS: usize = 7;
/// How many places of each array an entry takes.
const STRIDES: [u64; ARRAYS] = [1, 6, 6, 16, 3, 16, 1];

pub fn lines(file: &mut DataFile) {
    good(file);
    widths(file);
    array_lengths(file);
    huge_counts(file);
    words(file);
    formulas(file);
    atom_counts(file);
    pairs(file);
    orders(file);
    several_conditions(file);
}

fn case(file: &mut DataFile, handed: &Handed, refusal: u64) {
    assert_eq!(handed.refusal(), refusal);
    let mut arrays = handed.clone();
    assert!(arrays.arrays().iter().all(|length| **length <= ARRAY_MAX));
    let formulas = [handed.lengths, handed.ops, handed.operands];
    let pairs = [handed.pairs, handed.words, handed.listed, handed.order];
    let Atom {
        slot,
        length,
        op,
        operand,
    } = handed.atom;
    let atom = [slot, length.into(), op.into(), operand];
    file.line(
        PRODUCTS_REFUSED,
        &[
            &[handed.width, handed.count],
            &formulas,
            &[handed.atoms],
            &pairs,
            &[handed.word, handed.swap],
            &atom,
            &[handed.pair.slot],
            &handed.pair.words.map(u64::from),
            &[refusal],
        ],
    );
}

/// Exact arrays, a target of zeros.
fn hand(width: u64, count: u64, pairs: u64) -> Handed {
    let mut handed = hand_longest(width, count, pairs);
    let counts = [count, count, count, count, pairs, pairs, pairs];
    let needed = counts.iter().zip(STRIDES).map(|(count, all)| count * all);
    for (length, needed) in handed.arrays().into_iter().zip(needed) {
        *length = needed;
    }
    handed
}

/// Arrays as long as a line may have them.
fn hand_longest(width: u64, count: u64, pairs: u64) -> Handed {
    Handed {
        width,
        count,
        lengths: ARRAY_MAX,
        ops: ARRAY_MAX,
        operands: ARRAY_MAX,
        atoms: ARRAY_MAX,
        pairs,
        words: ARRAY_MAX,
        listed: ARRAY_MAX,
        order: ARRAY_MAX,
        word: 0,
        swap: 0,
        atom: Atom {
            slot: NO_SLOT,
            length: 1,
            op: CONSTANT,
            operand: 0,
        },
        pair: Pair {
            slot: NO_SLOT,
            words: [0; 3],
        },
    }
}

fn good(file: &mut DataFile) {
    for width in [1, 2, 63, 64] {
        case(file, &hand(width, 3, 5), NONE);
    }
    for (count, pairs) in [(0, 0), (1, 0), (479, 500)] {
        case(file, &hand(8, count, pairs), NONE);
        case(file, &hand_longest(8, count, pairs), NONE);
    }
}

fn widths(file: &mut DataFile) {
    for width in BAD_WIDTHS {
        case(file, &hand(width, 3, 5), REFUSED_WIDTH);
    }
}

/// Each array one short, empty and longer, but not by one more entry; all empty.
fn array_lengths(file: &mut DataFile) {
    for (array, stride) in STRIDES.into_iter().enumerate() {
        let mut handed = hand(8, 3, 5);
        *handed.arrays()[array] -= 1;
        case(file, &handed, REFUSED_LENGTH);
        *handed.arrays()[array] += stride;
        case(file, &handed, NONE);
        *handed.arrays()[array] = 0;
        case(file, &handed, REFUSED_LENGTH);
        // one more is claimed, and there is room for it in the other arrays alone
        let mut longer = hand(8, 4, 6);
        *longer.arrays()[array] -= 1;
        case(file, &longer, REFUSED_LENGTH);
    }
    let mut empty = hand(8, 3, 5);
    for length in empty.arrays() {
        *length = 0;
    }
    case(file, &empty, REFUSED_LENGTH);
}

/// Counts far beyond the arrays: 4 comes before 6 and 7. Three, six or sixteen times some of them is small modulo 2^64.
fn huge_counts(file: &mut DataFile) {
    for count in HUGE {
        case(file, &hand_longest(8, count, 5), REFUSED_LENGTH);
        case(file, &hand_longest(8, 3, count), REFUSED_LENGTH);
    }
    for (count, pairs) in [(u64::MAX / 6 + 1, 5), (3, u64::MAX / 3 + 1)] {
        case(file, &hand_longest(8, count, pairs), REFUSED_LENGTH);
    }
    for pairs in [501, PAIRS_MAX, PAIRS_MAX + 1] {
        case(file, &hand_longest(8, 3, pairs), REFUSED_LENGTH);
    }
    case(file, &hand_longest(8, u64::MAX, u64::MAX), REFUSED_LENGTH);
}

/// The last word is read too.
fn words(file: &mut DataFile) {
    for (width, large) in TOO_LARGE {
        let mut handed = hand(width.into(), 3, 5);
        handed.word = large;
        case(file, &handed, REFUSED_WORD);
        handed.word = largest(width);
        case(file, &handed, NONE);
    }
    let mut handed = hand(64, 3, 5);
    handed.word = u64::MAX;
    case(file, &handed, NONE);
    let mut nothing_lent = hand(8, 0, 0);
    nothing_lent.word = 256;
    case(file, &nothing_lent, REFUSED_WORD);
}

/// One token that is a formula, and all that isn't: lengths, opcodes, a variable too many, operands missing, a second token that is none.
/// An atom at the count isn't read.
fn formulas(file: &mut DataFile) {
    let handed = hand(8, 3, 5);
    for (op, operand) in [(CONSTANT, u64::MAX), (VARIABLE, 0), (VARIABLE, 5)] {
        case(file, &handed.with_atom(2, 1, op, operand), NONE);
    }
    for length in [0, 2, 6, 7, 64, 65, u32::MAX] {
        let other = handed.with_atom(1, length, CONSTANT, 0);
        case(file, &other, REFUSED_FORMULA);
    }
    let tokens = [
        (VARIABLE, 6),
        (VARIABLE, 1 << 32),
        (ADD, 0),
        (NOT, 0),
        (NEG, 1),
        (9, 0),
        (NO_TOKEN, 0),
    ];
    for (op, operand) in tokens {
        let other = handed.with_atom(2, 1, op, operand);
        case(file, &other, REFUSED_FORMULA);
    }
    case(file, &handed.with_atom(0, 0, CONSTANT, 0), REFUSED_FORMULA);
    let past = hand_longest(8, 3, 5).with_atom(3, 0, 9, 0);
    case(file, &past, NONE);
    let past_none = hand_longest(8, 0, 0).with_atom(0, 7, 9, 0);
    case(file, &past_none, NONE);
}

/// More than 479 atoms, with all that they need: 7, unless one of them has no formula.
fn atom_counts(file: &mut DataFile) {
    for (count, pairs) in [(480, 5), (481, 0), (500, 500)] {
        let handed = hand(8, count, pairs);
        case(file, &handed, REFUSED_COUNT);
        for slot in [0, 478] {
            let other = handed.with_atom(slot, 7, CONSTANT, 0);
            case(file, &other, REFUSED_FORMULA);
        }
    }
    case(
        file,
        &hand(8, 479, 5).with_atom(478, 1, VARIABLE, 6),
        REFUSED_FORMULA,
    );
    case(file, &hand_longest(8, 500, 5), REFUSED_COUNT);
    case(
        file,
        &hand_longest(8, 500, 5).with_atom(478, 1, NOT, 0),
        REFUSED_FORMULA,
    );
    for array in 0..4 {
        let mut short = hand(8, 480, 5);
        *short.arrays()[array] -= 1;
        case(file, &short, REFUSED_LENGTH);
    }
}

/// Gates and slots at their ends and beyond; b above c is fine. A pair at the count isn't read, and without atoms no pair is good.
fn pairs(file: &mut DataFile) {
    let handed = hand(8, 3, 5);
    for (slot, words) in [(0, [4, 2, 0]), (4, [0, 0, 2]), (2, [3, 2, 2])] {
        case(file, &handed.with_pair(slot, words), NONE);
    }
    let bad = [
        (0, [5, 0, 0]),
        (4, [u32::MAX, 0, 0]),
        (4, [0, 3, 0]),
        (0, [0, 0, 3]),
        (2, [4, 0, u32::MAX]),
        (3, [1, 1 << 31, 1]),
        (4, [5, 3, 3]),
    ];
    for (slot, words) in bad {
        case(file, &handed.with_pair(slot, words), REFUSED_COUNT);
    }
    let many = hand(8, 479, 500);
    case(file, &many.with_pair(499, [4, 478, 478]), NONE);
    case(file, &many.with_pair(499, [0, 479, 0]), REFUSED_COUNT);
    case(file, &many.with_pair(499, [0, 0, 479]), REFUSED_COUNT);
    let past = hand_longest(8, 3, 5).with_pair(5, [5, 3, 3]);
    case(file, &past, NONE);
    for (count, pairs) in [(0, 1), (0, 7)] {
        case(file, &hand(8, count, pairs), REFUSED_COUNT);
    }
}

/// The first two exchanged, which with one pair claimed is an entry at the count, and with none is not read.
fn orders(file: &mut DataFile) {
    for (pairs, refusal) in [(0, NONE), (1, REFUSED_ORDER), (2, REFUSED_ORDER)] {
        let mut handed = hand_longest(8, 3, pairs);
        handed.swap = 1;
        case(file, &handed, refusal);
    }
    for (count, pairs) in [(1, 5), (479, 500)] {
        let mut handed = hand(8, count, pairs);
        handed.swap = 1;
        case(file, &handed, REFUSED_ORDER);
    }
}

/// Several of: width, array length, word, formula, count, pair, order list.
fn several_conditions(file: &mut DataFile) {
    for (handed, refusal) in faulty(&hand_longest(8, 3, 5), &FAULTS) {
        case(file, &handed, refusal);
    }
}

const FAULTS: [Fault<Handed>; 7] = [
    Fault {
        make: |handed| handed.width = 65,
        refusal: REFUSED_WIDTH,
    },
    Fault {
        make: |handed| handed.words = 14,
        refusal: REFUSED_LENGTH,
    },
    Fault {
        make: |handed| handed.word = 256,
        refusal: REFUSED_WORD,
    },
    Fault {
        make: |handed| *handed = handed.with_atom(2, 7, CONSTANT, 0),
        refusal: REFUSED_FORMULA,
    },
    Fault {
        make: |handed| handed.count = 480,
        refusal: REFUSED_COUNT,
    },
    Fault {
        make: |handed| *handed = handed.with_pair(4, [5, 0, 0]),
        refusal: REFUSED_COUNT,
    },
    Fault {
        make: |handed| handed.swap = 1,
        refusal: REFUSED_ORDER,
    },
];

//! Lines of kind 22: what the specification's table refuses of the residual search, and close neighbours that it does not.
//! The Rust is not asked. Each case states its refusal by hand, and the table must say the same.

use super::REFUSED;
use crate::answers::data_file::DataFile;
use crate::answers::faults::{faulty, Fault, ARRAY_MAX, BAD_WIDTHS, HUGE, TOO_LARGE};
use crate::made::banks::largest;
use crate::spec::index::PAIRS_MAX;
use crate::spec::lent::ResidualSearch;
use crate::spec::refusals::{NONE, REFUSED_COUNT, REFUSED_LENGTH, REFUSED_WIDTH, REFUSED_WORD};

/// The numbers of a line.
#[derive(Clone)]
struct Handed {
    width: u64,
    count: u64,
    atoms: u64,
    pairs: u64,
    listed: u64,
    word: u64,
}

impl Handed {
    fn refusal(&self) -> u64 {
        let mut target = [0; 16];
        target[15] = self.word;
        let search = ResidualSearch {
            width: self.width,
            count: self.count,
            atoms: self.atoms,
            pairs: self.pairs,
            listed: self.listed,
            target,
        };
        search.refusal()
    }

    /// The lengths of both arrays.
    fn arrays(&mut self) -> [&mut u64; 2] {
        [&mut self.atoms, &mut self.listed]
    }
}

pub fn lines(file: &mut DataFile) {
    good(file);
    widths(file);
    array_lengths(file);
    huge_counts(file);
    words(file);
    atom_counts(file);
    several_conditions(file);
}

fn case(file: &mut DataFile, handed: &Handed, refusal: u64) {
    assert_eq!(handed.refusal(), refusal);
    assert!(handed.atoms <= ARRAY_MAX && handed.listed <= ARRAY_MAX);
    let atoms = [handed.width, handed.count, handed.atoms];
    let pairs = [handed.pairs, handed.listed];
    file.line(REFUSED, &[&atoms, &pairs, &[handed.word, refusal]]);
}

/// Exact arrays, a target of zeros.
fn hand(width: u64, count: u64, pairs: u64) -> Handed {
    Handed {
        width,
        count,
        atoms: 16 * count,
        pairs,
        listed: 16 * pairs,
        word: 0,
    }
}

/// Arrays as long as a line may have them.
fn hand_longest(width: u64, count: u64, pairs: u64) -> Handed {
    Handed {
        width,
        count,
        atoms: ARRAY_MAX,
        pairs,
        listed: ARRAY_MAX,
        word: 0,
    }
}

fn good(file: &mut DataFile) {
    for width in [1, 2, 63, 64] {
        case(file, &hand(width, 3, 5), NONE);
    }
    for (count, pairs) in [(0, 0), (0, 7), (1, 0), (479, 500)] {
        case(file, &hand(8, count, pairs), NONE);
        case(file, &hand_longest(8, count, pairs), NONE);
    }
}

fn widths(file: &mut DataFile) {
    for width in BAD_WIDTHS {
        case(file, &hand(width, 3, 5), REFUSED_WIDTH);
    }
}

/// Each array one short, empty and longer, but not by one more row; both empty.
fn array_lengths(file: &mut DataFile) {
    for array in 0..2 {
        let mut handed = hand(8, 3, 5);
        *handed.arrays()[array] -= 1;
        case(file, &handed, REFUSED_LENGTH);
        *handed.arrays()[array] += 16;
        case(file, &handed, NONE);
        *handed.arrays()[array] = 0;
        case(file, &handed, REFUSED_LENGTH);
        // one more is claimed, and there is room for it in the other array alone
        let mut longer = hand(8, 4, 6);
        *longer.arrays()[array] -= 1;
        case(file, &longer, REFUSED_LENGTH);
    }
    let mut empty = hand(8, 3, 5);
    for length in empty.arrays() {
        *length = 0;
    }
    case(file, &empty, REFUSED_LENGTH);
}

/// Counts far beyond the arrays: 4 comes before 7. Sixteen times some of them is small modulo 2^64.
fn huge_counts(file: &mut DataFile) {
    for count in HUGE {
        case(file, &hand_longest(8, count, 5), REFUSED_LENGTH);
        case(file, &hand_longest(8, 3, count), REFUSED_LENGTH);
    }
    for pairs in [501, PAIRS_MAX, PAIRS_MAX + 1] {
        case(file, &hand_longest(8, 3, pairs), REFUSED_LENGTH);
    }
    case(file, &hand_longest(8, u64::MAX, u64::MAX), REFUSED_LENGTH);
}

/// The last word is read too.
fn words(file: &mut DataFile) {
    for (width, large) in TOO_LARGE {
        let mut handed = hand(width.into(), 3, 5);
        handed.word = large;
        case(file, &handed, REFUSED_WORD);
        handed.word = largest(width);
        case(file, &handed, NONE);
    }
    let mut handed = hand(64, 3, 5);
    handed.word = u64::MAX;
    case(file, &handed, NONE);
    let mut nothing_lent = hand(8, 0, 0);
    nothing_lent.word = 256;
    case(file, &nothing_lent, REFUSED_WORD);
}

/// More than 479 atoms, with their rows.
fn atom_counts(file: &mut DataFile) {
    for (count, pairs) in [(480, 5), (481, 0), (500, 500)] {
        case(file, &hand(8, count, pairs), REFUSED_COUNT);
    }
    let mut short = hand(8, 480, 5);
    short.atoms -= 1;
    case(file, &short, REFUSED_LENGTH);
}

/// Several of: width, array length, word, count.
fn several_conditions(file: &mut DataFile) {
    for (handed, refusal) in faulty(&hand_longest(8, 3, 5), &FAULTS) {
        case(file, &handed, refusal);
    }
}

const FAULTS: [Fault<Handed>; 4] = [
    Fault {
        make: |handed| handed.width = 65,
        refusal: REFUSED_WIDTH,
    },
    Fault {
        make: |handed| handed.listed = 79,
        refusal: REFUSED_LENGTH,
    },
    Fault {
        make: |handed| handed.word = 256,
        refusal: REFUSED_WORD,
    },
    Fault {
        make: |handed| handed.count = 480,
        refusal: REFUSED_COUNT,
    },
];

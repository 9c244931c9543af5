//! Lines of kind 18: what the specification's table refuses of the candidates, and close neighbours that it does not. The
//! Rust is not asked. Each case states its refusal by hand, and the table must say the same.

use super::{zero_pairs, CANDIDATES_REFUSED};
use crate::answers::data_file::DataFile;
use crate::answers::faults::{faulty, Fault, ARRAY_MAX, BAD_WIDTHS, HUGE, TOO_LARGE};
use crate::made::banks::largest;
use crate::spec::index::PAIRS_MAX;
use crate::spec::lent::Candidates;
use crate::spec::refusals::{NONE, REFUSED_LENGTH, REFUSED_ORDER, REFUSED_WIDTH, REFUSED_WORD};

/// The numbers of a line.
#[derive(Clone)]
struct Handed {
    width: u64,
    pairs: u64,
    listed: u64,
    order: u64,
    list: u64,
    p: u64,
    t: u64,
    swap: u64,
}

impl Handed {
    fn refusal(&self) -> u64 {
        let candidates = Candidates {
            width: self.width,
            pairs: zero_pairs(self.pairs, self.listed, self.order, self.swap),
            p: self.p,
            t: self.t,
            list: self.list,
        };
        candidates.refusal()
    }

    /// The lengths of the three arrays.
    fn arrays(&mut self) -> [&mut u64; 3] {
        [&mut self.listed, &mut self.order, &mut self.list]
    }
}

pub fn lines(file: &mut DataFile) {
    good(file);
    widths(file);
    array_lengths(file);
    huge_counts(file);
    words(file);
    orders(file);
    several_conditions(file);
}

fn case(file: &mut DataFile, handed: &Handed, refusal: u64) {
    assert_eq!(handed.refusal(), refusal);
    let mut arrays = handed.clone();
    assert!(arrays.arrays().iter().all(|length| **length <= ARRAY_MAX));
    let pairs = [handed.width, handed.pairs, handed.listed, handed.order];
    let rest = [handed.list, handed.p, handed.t, handed.swap, refusal];
    file.line(CANDIDATES_REFUSED, &[&pairs, &rest]);
}

/// Exact arrays; p = 1, t = 0, so that every pair is a candidate.
fn hand(width: u64, pairs: u64) -> Handed {
    Handed {
        width,
        pairs,
        listed: 16 * pairs,
        order: pairs,
        list: pairs,
        p: 1,
        t: 0,
        swap: 0,
    }
}

/// Arrays as long as a line may have them.
fn hand_longest(width: u64, pairs: u64) -> Handed {
    Handed {
        width,
        pairs,
        listed: ARRAY_MAX,
        order: ARRAY_MAX,
        list: ARRAY_MAX,
        p: 1,
        t: 0,
        swap: 0,
    }
}

/// Used and not used.
fn good(file: &mut DataFile) {
    for width in [1, 2, 63, 64] {
        case(file, &hand(width, 5), NONE);
    }
    for pairs in [0, 1, 500] {
        case(file, &hand(8, pairs), NONE);
        case(file, &hand_longest(8, pairs), NONE);
        let mut not_used = hand(8, pairs);
        not_used.p = 0;
        case(file, &not_used, NONE);
    }
}

fn widths(file: &mut DataFile) {
    for width in BAD_WIDTHS {
        case(file, &hand(width, 5), REFUSED_WIDTH);
    }
}

/// Each array one short, empty and longer, but not by one more row; all empty. A place is wanted for each listed pair, even
/// where none is a candidate or the filter is not used.
fn array_lengths(file: &mut DataFile) {
    for array in 0..3 {
        let stride = [16, 1, 1][array];
        let mut handed = hand(8, 5);
        *handed.arrays()[array] -= 1;
        case(file, &handed, REFUSED_LENGTH);
        *handed.arrays()[array] += stride;
        case(file, &handed, NONE);
        *handed.arrays()[array] = 0;
        case(file, &handed, REFUSED_LENGTH);
    }
    for (p, t) in [(1, 1), (0, 0), (0, 1)] {
        let mut handed = hand(8, 5);
        (handed.p, handed.t, handed.list) = (p, t, 4);
        case(file, &handed, REFUSED_LENGTH);
    }
    let mut empty = hand(8, 5);
    for length in empty.arrays() {
        *length = 0;
    }
    case(file, &empty, REFUSED_LENGTH);
}

/// Counts far beyond the arrays: 4 comes before 7.
fn huge_counts(file: &mut DataFile) {
    for pairs in HUGE.into_iter().chain([501, PAIRS_MAX, PAIRS_MAX + 1]) {
        case(file, &hand_longest(8, pairs), REFUSED_LENGTH);
    }
}

/// p, t and both.
fn words(file: &mut DataFile) {
    for (width, large) in TOO_LARGE {
        let most = largest(width);
        let cases = [
            (large, 0, REFUSED_WORD),
            (1, large, REFUSED_WORD),
            (most, most, NONE),
        ];
        for (p, t, refusal) in cases {
            let mut handed = hand(width.into(), 5);
            (handed.p, handed.t) = (p, t);
            case(file, &handed, refusal);
        }
    }
    let mut handed = hand(64, 5);
    (handed.p, handed.t) = (u64::MAX, u64::MAX);
    case(file, &handed, NONE);
    let mut nothing_lent = hand(8, 0);
    (nothing_lent.p, nothing_lent.t) = (256, 256);
    case(file, &nothing_lent, REFUSED_WORD);
}

/// The first two exchanged, which with one pair claimed is an entry at the count, and with none is not read.
fn orders(file: &mut DataFile) {
    for (pairs, refusal) in [(0, NONE), (1, REFUSED_ORDER), (2, REFUSED_ORDER)] {
        let mut handed = hand_longest(8, pairs);
        handed.swap = 1;
        case(file, &handed, refusal);
    }
    // not used, used with no candidate: the order list is wrong all the same
    for (p, t) in [(0, 0), (0, 1), (2, 1)] {
        let mut handed = hand(8, 500);
        (handed.p, handed.t, handed.swap) = (p, t, 1);
        case(file, &handed, REFUSED_ORDER);
    }
}

/// Several of: width, array length, word, order list.
fn several_conditions(file: &mut DataFile) {
    for (handed, refusal) in faulty(&hand_longest(8, 5), &FAULTS) {
        case(file, &handed, refusal);
    }
}

const FAULTS: [Fault<Handed>; 4] = [
    Fault {
        make: |handed| handed.width = 65,
        refusal: REFUSED_WIDTH,
    },
    Fault {
        make: |handed| handed.list = 4,
        refusal: REFUSED_LENGTH,
    },
    Fault {
        make: |handed| handed.t = 256,
        refusal: REFUSED_WORD,
    },
    Fault {
        make: |handed| handed.swap = 1,
        refusal: REFUSED_ORDER,
    },
];

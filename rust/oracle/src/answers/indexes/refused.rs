//! Lines of kind 14: what the specification's table refuses of the index build, and close neighbours that it does not. The
//! Rust is not asked. Each case states its refusal by hand, and the table must say the same.

use super::REFUSED;
use crate::answers::data_file::DataFile;
use crate::spec::index::{Handed, PAIRS_MAX};
use crate::spec::refusals::{
    least, NONE, REFUSED_COUNT, REFUSED_LENGTH, REFUSED_LIMIT, REFUSED_WIDTH,
};

const BAD_WIDTHS: [u64; 5] = [0, 65, 66, 128, u32::MAX as u64];
const ARRAY_MAX: u64 = 8000;
/// Where nothing is refused, at most so many atoms and so large a limit.
const COUNT_MAX: u64 = 20;
const LIMIT_MAX: u64 = 100;

pub fn lines(file: &mut DataFile) {
    good(file);
    widths(file);
    limits(file);
    array_lengths(file);
    huge_counts(file);
    atom_counts(file);
    two_conditions(file);
    three_conditions(file);
}

fn case(file: &mut DataFile, handed: &Handed, refusal: u64) {
    assert_eq!(handed.refusal(), refusal);
    assert!(refusal != NONE || handed.count <= COUNT_MAX && handed.limit <= LIMIT_MAX);
    let (rows, pairs, pair_rows) = (handed.rows, handed.pairs, handed.pair_rows);
    let arrays = [rows, pairs, pair_rows, handed.order, handed.work];
    assert!(arrays.iter().all(|&length| length <= ARRAY_MAX));
    let head = [handed.width, handed.count, rows, handed.limit];
    let rest = [pairs, pair_rows, handed.order, handed.work, refusal];
    file.line(REFUSED, &[&head, &rest]);
}

/// Exact arrays.
fn hand(width: u64, count: u64, limit: u64) -> Handed {
    Handed {
        width,
        count,
        rows: 16 * count,
        limit,
        pairs: 3 * limit,
        pair_rows: 16 * limit,
        order: limit,
        work: 4 * (limit + 479),
    }
}

/// Arrays as long as a line may have them.
fn hand_longest(width: u64, count: u64, limit: u64) -> Handed {
    Handed {
        width,
        count,
        rows: ARRAY_MAX,
        limit,
        pairs: ARRAY_MAX,
        pair_rows: ARRAY_MAX,
        order: ARRAY_MAX,
        work: ARRAY_MAX,
    }
}

fn good(file: &mut DataFile) {
    for width in [1, 2, 63, 64] {
        case(file, &hand(width, 3, 5), NONE);
    }
    for (count, limit) in [(0, 0), (0, 7), (1, 0), (20, 100)] {
        case(file, &hand(8, count, limit), NONE);
        case(file, &hand_longest(8, count, limit), NONE);
    }
}

fn widths(file: &mut DataFile) {
    for width in BAD_WIDTHS {
        case(file, &hand(width, 3, 5), REFUSED_WIDTH);
    }
}

/// Some of the large ones are small when cut to fewer bits; a limit of 262,144 is not too large, but the arrays are short.
fn limits(file: &mut DataFile) {
    let too_large = [PAIRS_MAX + 1, (1 << 32) + 5, 1 << 62, 1 << 63, u64::MAX];
    for limit in too_large {
        case(file, &hand_longest(8, 3, limit), REFUSED_LIMIT);
    }
    for limit in [PAIRS_MAX - 1, PAIRS_MAX] {
        case(file, &hand_longest(8, 3, limit), REFUSED_LENGTH);
    }
}

/// The lengths of the five arrays.
fn arrays(handed: &mut Handed) -> [&mut u64; 5] {
    [
        &mut handed.rows,
        &mut handed.pairs,
        &mut handed.pair_rows,
        &mut handed.order,
        &mut handed.work,
    ]
}

/// Each array one short, empty and one longer; just short of room for one more.
fn array_lengths(file: &mut DataFile) {
    for array in 0..5 {
        let mut handed = hand(8, 3, 5);
        *arrays(&mut handed)[array] -= 1;
        case(file, &handed, REFUSED_LENGTH);
        *arrays(&mut handed)[array] += 2;
        case(file, &handed, NONE);
        *arrays(&mut handed)[array] = 0;
        case(file, &handed, REFUSED_LENGTH);
    }
    for array in 0..5 {
        let mut handed = hand(8, 3, 5);
        let stride = [16, 3, 16, 1, 4][array];
        *arrays(&mut handed)[array] += stride - 1;
        case(file, &handed, NONE);
        // room for one more is not there, though one more is claimed
        match array {
            0 => handed.count = 4,
            _ => handed = longer_but(array, &handed),
        }
        case(file, &handed, REFUSED_LENGTH);
    }
    let mut no_work = hand(8, 0, 0);
    no_work.work -= 1;
    case(file, &no_work, REFUSED_LENGTH);
}

/// A limit larger by one, and room for it in every array but one.
fn longer_but(array: usize, handed: &Handed) -> Handed {
    let mut short = handed.clone();
    let mut longer = hand(handed.width, handed.count, handed.limit + 1);
    *arrays(&mut longer)[array] = *arrays(&mut short)[array];
    longer
}

/// Counts far beyond the rows: 4 comes before 7. Sixteen times some of them is small modulo 2^64.
fn huge_counts(file: &mut DataFile) {
    for count in [
        501,
        (1 << 32) + 3,
        1 << 60,
        (1 << 60) + 3,
        1 << 63,
        u64::MAX,
    ] {
        case(file, &hand_longest(8, count, 5), REFUSED_LENGTH);
    }
    let mut handed = hand(8, 480, 5);
    handed.rows -= 1;
    case(file, &handed, REFUSED_LENGTH);
}

/// More than 479 atoms, with their rows.
fn atom_counts(file: &mut DataFile) {
    for (count, limit) in [(480, 5), (481, 0), (500, 100)] {
        case(file, &hand(8, count, limit), REFUSED_COUNT);
    }
    // as many as there can be, but the rows are one short
    let mut handed = hand(8, 479, 5);
    handed.rows -= 1;
    case(file, &handed, REFUSED_LENGTH);
}

/// Each two of: width, limit, array length, count.
fn two_conditions(file: &mut DataFile) {
    for (first, one) in FAULTS.iter().enumerate() {
        for other in &FAULTS[first + 1..] {
            let mut handed = hand_longest(8, 3, 5);
            (one.make)(&mut handed);
            (other.make)(&mut handed);
            case(file, &handed, least(one.refusal, other.refusal));
        }
    }
}

/// All faults, and all but one.
fn three_conditions(file: &mut DataFile) {
    for kept in 0..=1 {
        let mut handed = hand_longest(8, 3, 5);
        for fault in &FAULTS[kept..] {
            (fault.make)(&mut handed);
        }
        let refusals = FAULTS[kept..].iter().map(|fault| fault.refusal);
        case(file, &handed, refusals.fold(NONE, least));
    }
}

/// Something wrong, and what it alone is refused with.
struct Fault {
    make: fn(&mut Handed),
    refusal: u64,
}

const FAULTS: [Fault; 4] = [
    Fault {
        make: |handed| handed.width = 65,
        refusal: REFUSED_WIDTH,
    },
    Fault {
        make: |handed| handed.limit = PAIRS_MAX + 1,
        refusal: REFUSED_LIMIT,
    },
    Fault {
        make: |handed| handed.work = 1900,
        refusal: REFUSED_LENGTH,
    },
    Fault {
        make: |handed| handed.count = 480,
        refusal: REFUSED_COUNT,
    },
];

//! Texts in plain shape that the table refuses with 1, 2, 3 or 5, and close neighbours that it does not.

use super::texts::{ones, p2, plain, target, LIMIT, NUM_VARS, POINTS, WIDTH};
use super::Listings;
use crate::spec::listing::LIMIT_MAX;
use crate::spec::refusals::{
    least, NONE, REFUSED_LIMIT, REFUSED_VARS, REFUSED_WIDTH, REFUSED_WORD,
};

/// Some are good when cut to fewer bits.
const BAD_WIDTHS: [u64; 6] = [0, 65, 128, 264, (1 << 32) + 2, u64::MAX];
const BAD_LIMITS: [u64; 5] = [LIMIT_MAX + 1, 262_144, (1 << 32) + 3, 1 << 63, u64::MAX];
/// Widths with the least word that is too large.
const TOO_LARGE: [(u64, u64); 4] = [(1, 2), (8, 256), (32, 1 << 32), (63, 1 << 63)];

pub fn cases(file: &mut Listings) {
    variable_counts(file);
    widths_and_limits(file);
    point_words(file);
    target_words(file);
    two_conditions(file);
    all_conditions(file);
}

/// As many numbers as the count asks for: 19 for 0, 131 for 7.
fn variable_counts(file: &mut Listings) {
    for num_vars in [0, 7, 8, 64] {
        file.case(&plain(&ones(num_vars)), REFUSED_VARS);
    }
    file.case(&plain(&ones(1)), NONE);
    file.case(&plain(&ones(6)), NONE);
}

fn widths_and_limits(file: &mut Listings) {
    for width in BAD_WIDTHS {
        with(file, p2(10), &[(WIDTH, width)], REFUSED_WIDTH);
    }
    // with width 0 no word but 0 would be below 2^width
    let mut zeros = vec![0; 35];
    zeros[NUM_VARS] = 1;
    file.case(&plain(&zeros), REFUSED_WIDTH);
    for limit in BAD_LIMITS {
        file.case(&plain(&p2(limit)), REFUSED_LIMIT);
    }
}

/// Numbers with some of them changed.
fn with(file: &mut Listings, mut numbers: Vec<u64>, changes: &[(usize, u64)], refusal: u64) {
    for &(place, number) in changes {
        numbers[place] = number;
    }
    file.case(&plain(&numbers), refusal);
}

/// The first word of the first point, the last of the last point, one between.
fn point_words(file: &mut Listings) {
    for (width, word) in TOO_LARGE {
        for (num_vars, place) in [(1, 0), (2, 31), (3, 22)] {
            let changes = [(WIDTH, width), (POINTS + place, word)];
            with(file, ones(num_vars), &changes, REFUSED_WORD);
        }
        let changes = [(WIDTH, width), (POINTS + 31, word - 1)];
        with(file, ones(2), &changes, NONE);
    }
    with(file, ones(6), &[(POINTS + 95, u64::MAX)], REFUSED_WORD);
}

/// The sheet's 256 and 255 at width 8 among them.
fn target_words(file: &mut Listings) {
    let numbers = ones(1);
    let first = target(&numbers);
    for ((width, word), place) in TOO_LARGE.into_iter().zip([15, 0, 7, 1]) {
        let too_large = [(WIDTH, width), (first + place, word)];
        with(file, numbers.clone(), &too_large, REFUSED_WORD);
        let largest = [(WIDTH, width), (first + place, word - 1)];
        with(file, numbers.clone(), &largest, NONE);
    }
    for place in [7, 8, 15] {
        let changes = [(WIDTH, 8), (first + place, 256)];
        with(file, numbers.clone(), &changes, REFUSED_WORD);
    }
}

/// Each two of: variable count, width, limit, point word, target word. The least number counts.
fn two_conditions(file: &mut Listings) {
    for (first, one) in FAULTS.iter().enumerate() {
        for other in &FAULTS[first + 1..] {
            several(file, &[one, other]);
        }
    }
}

/// All faults, all but one, all but two.
fn all_conditions(file: &mut Listings) {
    for kept in 0..=2 {
        let faults: Vec<&Fault> = FAULTS[kept..].iter().collect();
        several(file, &faults);
    }
}

/// The faults one after the other, over seven variables if the count is one of them.
fn several(file: &mut Listings, faults: &[&Fault]) {
    let is_count_bad = faults.iter().any(|fault| fault.refusal == REFUSED_VARS);
    let mut numbers = ones(if is_count_bad { 7 } else { 2 });
    for fault in faults {
        (fault.make)(&mut numbers);
    }
    let refusals = faults.iter().map(|fault| fault.refusal);
    file.case(&plain(&numbers), refusals.fold(NONE, least));
}

/// Something wrong, and what it alone is refused with.
struct Fault {
    make: fn(&mut [u64]),
    refusal: u64,
}

const FAULTS: [Fault; 5] = [
    Fault {
        make: |numbers| numbers[NUM_VARS] = 7,
        refusal: REFUSED_VARS,
    },
    Fault {
        make: |numbers| numbers[WIDTH] = 65,
        refusal: REFUSED_WIDTH,
    },
    Fault {
        make: |numbers| numbers[LIMIT] = LIMIT_MAX + 1,
        refusal: REFUSED_LIMIT,
    },
    Fault {
        make: |numbers| numbers[POINTS + 9] = u64::MAX,
        refusal: REFUSED_WORD,
    },
    Fault {
        make: |numbers| numbers[target(numbers) + 9] = 1 << 62,
        refusal: REFUSED_WORD,
    },
];

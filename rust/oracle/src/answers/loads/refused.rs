//! Lines of kind 24 that the specification's table refuses, and close neighbours that it does not. Each case states its refusal by hand,
//! and the table must say the same.

use super::drawn::exact;
use super::line;
use crate::access::splitmix64;
use crate::answers::data_file::DataFile;
use crate::answers::faults::{faulty, Fault, BAD_WIDTHS};
use crate::spec::lent::DrawFormula;
use crate::spec::refusals::{NONE, REFUSED_FORMULA, REFUSED_LENGTH, REFUSED_VARS, REFUSED_WIDTH};

const STATE: u64 = 0x0123_4567_89AB_CDEF;
const BAD_VARS: [u64; 4] = [0, 7, 8, u32::MAX as u64];
/// Some are good when cut to fewer bits.
const BAD_LIMITS: [u64; 8] = [
    0,
    65,
    66,
    256 + 7,
    (1 << 32) + 7,
    1 << 63,
    u64::MAX - 1,
    u64::MAX,
];
/// The most places of an array.
const PLACES: u64 = 80;

pub fn lines(file: &mut DataFile) {
    variable_counts_and_widths(file);
    limits(file);
    lengths(file);
    several_conditions(file);
}

fn case(file: &mut DataFile, handed: &DrawFormula, state: u64, refusal: u64) {
    assert_eq!(handed.refusal(), refusal);
    assert!(handed.ops.max(handed.operands) <= PLACES);
    line(file, handed, state);
}

fn variable_counts_and_widths(file: &mut DataFile) {
    for num_vars in BAD_VARS {
        case(file, &exact(num_vars, 8, 7), STATE, REFUSED_VARS);
    }
    for width in BAD_WIDTHS {
        case(file, &exact(2, width, 7), STATE, REFUSED_WIDTH);
    }
}

/// With arrays of several lengths, none of which is too short for a limit that is none.
fn limits(file: &mut DataFile) {
    for limit in BAD_LIMITS {
        for places in [0, 64, PLACES] {
            let handed = DrawFormula {
                ops: places,
                operands: places,
                ..exact(2, 8, limit)
            };
            case(file, &handed, STATE, REFUSED_FORMULA);
        }
    }
    case(file, &exact(2, 8, 1), STATE, NONE);
    case(file, &exact(2, 8, 64), STATE, NONE);
}

/// The least state from which the length is 1 for the limits 1, 2, 7 and 64.
fn shortest() -> u64 {
    let length = |state| 1 + splitmix64(state).1 % (7 * 64);
    let shortest = (0..).find(|&state| length(state) == 1);
    shortest.expect("a state in some hundreds")
}

/// Each array, or both, one short, empty, and one longer; also where the formula would have had its places.
fn lengths(file: &mut DataFile) {
    for state in [STATE, shortest()] {
        for limit in [1, 2, 7, 64] {
            let good = exact(3, 32, limit);
            let short = |ops, operands| DrawFormula {
                ops,
                operands,
                ..good
            };
            case(file, &short(limit - 1, limit), state, REFUSED_LENGTH);
            case(file, &short(limit, limit - 1), state, REFUSED_LENGTH);
            case(file, &short(limit - 1, PLACES), state, REFUSED_LENGTH);
            case(file, &short(PLACES, 0), state, REFUSED_LENGTH);
            case(file, &short(0, 0), state, REFUSED_LENGTH);
            case(file, &good, state, NONE);
            case(file, &short(limit + 1, limit), state, NONE);
            case(file, &short(limit, limit + 1), state, NONE);
        }
    }
}

/// Several of: variable count, width, array length, limit. A limit that is none has no arrays that are too short.
fn several_conditions(file: &mut DataFile) {
    for (handed, refusal) in faulty(&exact(2, 8, 7), &FAULTS) {
        case(file, &handed, STATE, refusal);
    }
    for (handed, refusal) in faulty(&exact(2, 8, 65), &FAULTS[..2]) {
        case(file, &handed, STATE, refusal);
        let empty = DrawFormula {
            ops: 0,
            operands: 0,
            ..handed
        };
        case(file, &empty, STATE, refusal);
    }
}

const FAULTS: [Fault<DrawFormula>; 3] = [
    Fault {
        make: |handed| handed.num_vars = 7,
        refusal: REFUSED_VARS,
    },
    Fault {
        make: |handed| handed.width = 65,
        refusal: REFUSED_WIDTH,
    },
    Fault {
        make: |handed| handed.operands = 6,
        refusal: REFUSED_LENGTH,
    },
];

//! Lines of kind 26 that the specification's table refuses, and close neighbours that it does not. Each case states its refusal by hand,
//! and the table must say the same.

use super::answered::exact;
use super::line;
use crate::access::Formula;
use crate::answers::data_file::DataFile;
use crate::answers::faults::{faulty, Fault, BAD_VARS, BAD_WIDTHS, HUGE};
use crate::made::formulas::{left_chain, right_chain, unary_chain};
use crate::spec::formulas::{ADD, AND, CONSTANT, NOT, VARIABLE, VARS_MAX, XOR};
use crate::spec::lent::RunRule;
use crate::spec::refusals::{
    NONE, REFUSED_FORMULA, REFUSED_LENGTH, REFUSED_VARS, REFUSED_WIDTH, REFUSED_WINDOW,
};
use crate::spec::rule::Rule;

const STATE: u64 = 0x0123_4567_89AB_CDEF;
const V0: (u8, u64) = (VARIABLE, 0);
const V1: (u8, u64) = (VARIABLE, 1);

pub fn lines(file: &mut DataFile) {
    variable_counts_and_widths(file);
    lengths(file);
    huge_counts(file);
    formulas(file);
    windows(file);
    several_conditions(file);
}

/// The words of as many records as are handed in: 5, 6, 7, 5 and so on.
fn case(file: &mut DataFile, handed: &RunRule, refusal: u64) {
    assert_eq!(handed.refusal(), refusal);
    let records: Vec<u64> = (0..handed.records).map(|place| 5 + place % 3).collect();
    let next = line(file, handed, STATE, &records);
    assert!(refusal == NONE || next == STATE);
}

/// `v0 v1 &` at width 8, three of the last five.
fn good(n: usize) -> RunRule {
    over(left_chain(&[V0, V1], &[AND]), 2, n)
}

fn over(formula: Formula, num_vars: usize, n: usize) -> RunRule {
    let rule = Rule {
        formula,
        num_vars,
        width: 8,
        m: 3,
        window: 5,
    };
    exact(&rule, n)
}

/// The good one of so many records, changed.
fn changed(n: usize, change: impl Fn(&mut RunRule)) -> RunRule {
    let mut handed = good(n);
    change(&mut handed);
    handed
}

fn variable_counts_and_widths(file: &mut DataFile) {
    for n in [0, 2] {
        for num_vars in BAD_VARS {
            let handed = changed(n, |handed| handed.num_vars = num_vars);
            case(file, &handed, REFUSED_VARS);
        }
        for width in BAD_WIDTHS {
            let handed = changed(n, |handed| handed.width = width);
            case(file, &handed, REFUSED_WIDTH);
        }
    }
}

/// Each array one place short, empty, and just long enough.
fn lengths(file: &mut DataFile) {
    let short = |file: &mut DataFile, n, shorten: &dyn Fn(&mut RunRule)| {
        case(file, &changed(n, shorten), REFUSED_LENGTH);
    };
    for kept in [0, 2] {
        short(file, 2, &|handed| handed.ops.truncate(kept));
        short(file, 2, &|handed| handed.operands.truncate(kept));
    }
    short(file, 1, &|handed| handed.records = 0);
    short(file, 1, &|handed| handed.answers = 0);
    case(file, &good(0), NONE);
    for num_vars in [1, 2, 3, VARS_MAX] {
        let constant = unary_chain((CONSTANT, 9), &[]);
        let mut handed = over(constant, num_vars as usize, 17);
        case(file, &handed, NONE);
        handed.records -= 1;
        case(file, &handed, REFUSED_LENGTH);
        handed.records += 1;
        handed.answers -= 1;
        case(file, &handed, REFUSED_LENGTH);
    }
}

/// Counts of records and of tokens far beyond the arrays.
fn huge_counts(file: &mut DataFile) {
    // twice it is 4 modulo 2^64 (and the answers are too few all the same)
    let wraps = (1 << 63) + 2;
    for n in HUGE.into_iter().chain([3, wraps]) {
        let handed = changed(2, |handed| handed.n = n);
        case(file, &handed, REFUSED_LENGTH);
    }
    for count in [4, 256 + 3, (1 << 32) + 3, u64::MAX] {
        let handed = changed(2, |handed| handed.count = count);
        case(file, &handed, REFUSED_LENGTH);
    }
}

/// No token and too many, an opcode, an operand, a variable; a missing operand, two values left. Also with no records.
fn formulas(file: &mut DataFile) {
    for n in [0, 2] {
        for count in [0, 2] {
            let handed = changed(n, |handed| handed.count = count);
            case(file, &handed, REFUSED_FORMULA);
        }
    }
    let mut unused_operand = unary_chain(V0, &[]);
    unused_operand.push(NOT, 1);
    for formula in [
        unary_chain(V0, &[NOT; 64]),
        right_chain(&[V0; 33], &[XOR; 32]),
        unary_chain((9, 0), &[]),
        unary_chain(V0, &[255]),
        unary_chain((VARIABLE, 2), &[]),
        unary_chain((VARIABLE, 1 << 32), &[]),
        unused_operand,
        right_chain(&[V0, V1], &[]),
        unary_chain(V0, &[ADD]),
        unary_chain((NOT, 0), &[]),
    ] {
        case(file, &over(formula, 2, 1), REFUSED_FORMULA);
    }
    case(file, &over(unary_chain(V0, &[NOT; 63]), 2, 1), NONE);
    case(file, &over(right_chain(&[V0; 32], &[XOR; 31]), 2, 1), NONE);
}

/// At and past the ends of both ranges, also where M is 1 to W.
fn windows(file: &mut DataFile) {
    let most = u64::from(u32::MAX);
    for (m, window) in [
        (0, 5),
        (6, 5),
        (256 + 3, 5),
        (most, 5),
        (0, 0),
        (1, 0),
        (1, 65),
        (65, 65),
        (64, 65),
        (3, 256 + 5),
        (1, most),
        (most, most),
        (0, 64),
        (65, 64),
        (2, 1),
    ] {
        let n = (m + window) as usize % 3;
        let handed = changed(n, |handed| (handed.m, handed.window) = (m, window));
        case(file, &handed, REFUSED_WINDOW);
    }
    for (m, window) in [(1, 1), (5, 5), (1, 64), (64, 64)] {
        let handed = changed(2, |handed| (handed.m, handed.window) = (m, window));
        case(file, &handed, NONE);
    }
}

/// Each two of: variable count, width, one of the four arrays, formula, window; each three, and all.
fn several_conditions(file: &mut DataFile) {
    for (handed, refusal) in faulty(&good(2), &FAULTS) {
        case(file, &handed, refusal);
    }
    let shorten: [fn(&mut RunRule); 3] = [
        |handed| handed.operands.truncate(2),
        |handed| handed.records -= 1,
        |handed| handed.answers -= 1,
    ];
    for shorten in shorten {
        let mut handed = RunRule { m: 0, ..good(2) };
        shorten(&mut handed);
        case(file, &handed, REFUSED_LENGTH);
        handed.ops[2] = 9;
        case(file, &handed, REFUSED_LENGTH);
    }
}

const FAULTS: [Fault<RunRule>; 5] = [
    Fault {
        make: |handed| handed.num_vars = 7,
        refusal: REFUSED_VARS,
    },
    Fault {
        make: |handed| handed.width = 65,
        refusal: REFUSED_WIDTH,
    },
    Fault {
        make: |handed| handed.count = 4,
        refusal: REFUSED_LENGTH,
    },
    Fault {
        make: |handed| handed.operands[1] = 6,
        refusal: REFUSED_FORMULA,
    },
    Fault {
        make: |handed| handed.window = 2,
        refusal: REFUSED_WINDOW,
    },
];

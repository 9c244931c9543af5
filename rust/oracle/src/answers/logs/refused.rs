//! Lines of kind 27 that the specification's table refuses, and close neighbours that it does not. Each case states its refusal by hand,
//! and the table must say the same.

use super::answered::{exact, put_formula};
use super::{run_line, NO_TOKEN};
use crate::access::Formula;
use crate::answers::data_file::DataFile;
use crate::answers::faults::{faulty, Fault, BAD_VARS, BAD_WIDTHS, HUGE};
use crate::made::formulas::{left_chain, right_chain, unary_chain};
use crate::spec::formulas::{ADD, AND, NOT, TOKENS_MAX, VARIABLE, XOR};
use crate::spec::lent::RunLog;
use crate::spec::log::{Log, Ranked};
use crate::spec::refusals::{
    NONE, REFUSED_FORMULA, REFUSED_LENGTH, REFUSED_RANKS, REFUSED_VARS, REFUSED_WIDTH,
    REFUSED_WINDOW,
};
use crate::spec::rule::Rule;

const V0: (u8, u64) = (VARIABLE, 0);
const V1: (u8, u64) = (VARIABLE, 1);

pub fn lines(file: &mut DataFile) {
    variable_counts_and_widths(file);
    lengths(file);
    huge_counts(file);
    formulas(file);
    windows(file);
    rule_counts(file);
    ranks(file);
    several_conditions(file);
}

/// A log that no run gives.
fn log() -> Log {
    Log {
        open: 7,
        rank: 99,
        number: u64::MAX,
        closed_at: 3,
        later: 0x0123_4567_89AB_CDEF,
        windows: [0, 1, 2, 3, 4, 5, u64::MAX, 1 << 63],
    }
}

/// Records of the words 5, 6, 7, 5 and so on; with a sounding or without one, a record alone with both.
fn case(file: &mut DataFile, handed: &RunLog, refusal: u64) {
    assert_eq!(handed.refusal(), refusal);
    let said: &[u64] = if handed.records == 0 { &[] } else { &[5, 6, 7] };
    let none = Log { open: 0, ..log() };
    let logs: &[Log] = match handed.n {
        1 => &[none, log()],
        n if n % 2 == 1 => &[none],
        _ => &[log()],
    };
    for log in logs {
        let next = run_line(file, handed, log, said);
        assert!(refusal == NONE || next == *log);
    }
}

/// So many rules of `v0 v1 &` at width 8, three of the last five, with the greatest rank first.
fn good(rules: u32, n: usize) -> RunLog {
    let ranked = |rank| {
        let rule = Rule {
            formula: left_chain(&[V0, V1], &[AND]),
            num_vars: 2,
            width: 8,
            m: 3,
            window: 5,
        };
        Ranked { rank, rule }
    };
    let rules: Vec<Ranked> = (1..=rules).rev().map(ranked).collect();
    exact(&rules, n)
}

/// The good one of two rules and so many records, changed.
fn changed(n: usize, change: impl Fn(&mut RunLog)) -> RunLog {
    of_rules(2, n, change)
}

fn of_rules(rules: u32, n: usize, change: impl Fn(&mut RunLog)) -> RunLog {
    let mut handed = good(rules, n);
    change(&mut handed);
    handed
}

fn variable_counts_and_widths(file: &mut DataFile) {
    for (turn, num_vars) in BAD_VARS.into_iter().enumerate() {
        let handed = changed(turn % 3, |handed| handed.num_vars = num_vars);
        case(file, &handed, REFUSED_VARS);
    }
    for (turn, width) in BAD_WIDTHS.into_iter().enumerate() {
        let handed = changed(turn % 3, |handed| handed.width = width);
        case(file, &handed, REFUSED_WIDTH);
    }
}

/// The arrays of a rule's numbers and of the tokens.
const ARRAYS: [fn(&mut RunLog) -> &mut Vec<u64>; 6] = [
    |handed| &mut handed.ranks,
    |handed| &mut handed.ms,
    |handed| &mut handed.windows,
    |handed| &mut handed.token_counts,
    |handed| &mut handed.ops,
    |handed| &mut handed.operands,
];

/// Each array one place short, empty, and just long enough.
fn lengths(file: &mut DataFile) {
    for array in ARRAYS {
        for (rules, n) in [(1, 0), (8, 1)] {
            let short = of_rules(rules, n, |handed| {
                array(handed).pop();
            });
            case(file, &short, REFUSED_LENGTH);
        }
        let empty = changed(2, |handed| array(handed).clear());
        case(file, &empty, REFUSED_LENGTH);
    }
    for (rules, n) in [(1, 0), (2, 1), (8, 3), (3, 17)] {
        let mut handed = good(rules, n);
        case(file, &handed, NONE);
        if n > 0 {
            handed.records -= 1;
            case(file, &handed, REFUSED_LENGTH);
        }
    }
    case(
        file,
        &changed(2, |handed| handed.records = 0),
        REFUSED_LENGTH,
    );
}

/// Counts of rules and of records far beyond the arrays.
fn huge_counts(file: &mut DataFile) {
    // 64 times the last but one is 128 modulo 2^64 (and the other arrays are too short all the same)
    for rules in HUGE.into_iter().chain([(1 << 58) + 2, 3]) {
        let handed = changed(2, |handed| handed.rules = rules);
        case(file, &handed, REFUSED_LENGTH);
    }
    // twice the last is 4 modulo 2^64
    for n in HUGE.into_iter().chain([3, (1 << 63) + 2]) {
        let handed = changed(2, |handed| handed.n = n);
        case(file, &handed, REFUSED_LENGTH);
    }
}

/// No token and too many, an opcode, an operand, a variable; a missing operand, two values left: of the first rule, of the last, of a ninth.
fn formulas(file: &mut DataFile) {
    let most = u64::from(u32::MAX);
    for (turn, count) in [0, 2, 4, 65, 256 + 3, most].into_iter().enumerate() {
        let handed = changed(turn % 3, |handed| handed.token_counts[turn % 2] = count);
        case(file, &handed, REFUSED_FORMULA);
    }
    let mut unused_operand = unary_chain(V0, &[]);
    unused_operand.push(NOT, 1);
    for (turn, formula) in [
        unary_chain((9, 0), &[]),
        unary_chain(V0, &[255]),
        unary_chain((VARIABLE, 2), &[]),
        unary_chain((VARIABLE, 1 << 32), &[]),
        unused_operand,
        right_chain(&[V0, V1], &[]),
        unary_chain(V0, &[ADD]),
        unary_chain((NOT, 0), &[]),
    ]
    .iter()
    .enumerate()
    {
        let rules = [2, 9][turn % 2];
        let rule = [0, rules - 1][turn / 2 % 2];
        let handed = with_formula(rules, rule, formula);
        case(file, &handed, REFUSED_FORMULA);
    }
    // as many tokens as there are places for, and one more claimed
    let longest = unary_chain(V0, &[NOT; 63]);
    let mut handed = with_formula(1, 0, &longest);
    case(file, &handed, NONE);
    handed.token_counts[0] += 1;
    case(file, &handed, REFUSED_FORMULA);
    let deepest = right_chain(&[V0; 32], &[XOR; 31]);
    case(file, &with_formula(2, 1, &deepest), NONE);
}

/// The good one, with another formula of a rule.
fn with_formula(rules: u32, rule: u32, formula: &Formula) -> RunLog {
    of_rules(rules, 1, |handed| {
        let rule = rule as usize;
        let tokens = TOKENS_MAX * rule..TOKENS_MAX * (rule + 1);
        handed.ops[tokens.clone()].fill(NO_TOKEN.0);
        handed.operands[tokens].fill(NO_TOKEN.1);
        put_formula(&mut handed.ops, &mut handed.operands, rule, formula);
        handed.token_counts[rule] = formula.ops.len() as u64;
    })
}

/// At and past the ends of both ranges, of the first rule, of the last and of a ninth.
fn windows(file: &mut DataFile) {
    let most = u64::from(u32::MAX);
    for (turn, (m, window)) in [
        (0, 5),
        (6, 5),
        (256 + 3, 5),
        (most, 5),
        (0, 0),
        (1, 0),
        (1, 65),
        (65, 65),
        (3, 256 + 5),
        (most, most),
        (65, 64),
        (2, 1),
    ]
    .into_iter()
    .enumerate()
    {
        let rules = [1, 2, 8, 9][turn % 4];
        let rule = [0, rules as usize - 1][turn / 2 % 2];
        let handed = of_rules(rules, turn % 3, |handed| {
            (handed.ms[rule], handed.windows[rule]) = (m, window);
        });
        case(file, &handed, REFUSED_WINDOW);
    }
    for (m, window) in [(1, 1), (5, 5), (1, 64), (64, 64)] {
        let handed = changed(2, |handed| (handed.ms[1], handed.windows[1]) = (m, window));
        case(file, &handed, NONE);
    }
}

/// No rule, with arrays and without; nine and ten, also with ranks of 1 to 8.
fn rule_counts(file: &mut DataFile) {
    for n in [0, 1, 2] {
        case(file, &changed(n, |handed| handed.rules = 0), REFUSED_RANKS);
    }
    let none = changed(2, |handed| {
        handed.rules = 0;
        for array in ARRAYS {
            array(handed).clear();
        }
    });
    case(file, &none, REFUSED_RANKS);
    let mut short = none;
    short.records -= 1;
    case(file, &short, REFUSED_LENGTH);
    for rules in [9, 10] {
        case(file, &good(rules, 2), REFUSED_RANKS);
        let ranked = of_rules(rules, 1, |handed| {
            handed
                .ranks
                .iter_mut()
                .for_each(|rank| *rank = 1 + *rank % 8);
        });
        case(file, &ranked, REFUSED_RANKS);
        // the same arrays, eight of them claimed
        let eight = of_rules(rules, 3, |handed| {
            handed.ranks.reverse();
            handed.rules = 8;
        });
        case(file, &eight, NONE);
    }
}

/// Ranks at and past the ends of their range, some good when cut to fewer bits; equal ones, neighbours and the first with the last.
fn ranks(file: &mut DataFile) {
    let most = u64::from(u32::MAX);
    for (turn, rank) in [0, 9, 10, 256 + 3, most].into_iter().enumerate() {
        for rule in [0, 1] {
            let handed = changed(turn % 3, |handed| handed.ranks[rule] = rank);
            case(file, &handed, REFUSED_RANKS);
        }
    }
    for (rules, one, other) in [(2, 0, 1), (8, 0, 7), (8, 3, 4), (8, 6, 7), (3, 0, 2)] {
        let handed = of_rules(rules, 2, |handed| handed.ranks[one] = handed.ranks[other]);
        case(file, &handed, REFUSED_RANKS);
    }
    for ranks in [[1, 8], [8, 1], [7, 8]] {
        case(
            file,
            &changed(2, |handed| handed.ranks = ranks.to_vec()),
            NONE,
        );
    }
    // equal to one past the rules
    let past = changed(2, |handed| handed.ranks.push(handed.ranks[0]));
    case(file, &past, NONE);
}

/// Each two of: variable count, width, an array, formula, window, ranks; each three, and all.
fn several_conditions(file: &mut DataFile) {
    for (handed, refusal) in faulty(&good(3, 2), &FAULTS) {
        case(file, &handed, refusal);
    }
    // of different rules, and a ninth
    for (formula, window) in [(0, 8), (8, 0)] {
        let mut handed = of_rules(9, 1, |handed| handed.ms[window] = 0);
        case(file, &handed, REFUSED_WINDOW);
        handed.ops[TOKENS_MAX * formula] = 9;
        case(file, &handed, REFUSED_FORMULA);
        handed.records -= 1;
        case(file, &handed, REFUSED_LENGTH);
    }
}

const FAULTS: [Fault<RunLog>; 6] = [
    Fault {
        make: |handed| handed.num_vars = 7,
        refusal: REFUSED_VARS,
    },
    Fault {
        make: |handed| handed.width = 65,
        refusal: REFUSED_WIDTH,
    },
    Fault {
        make: |handed| handed.n = 3,
        refusal: REFUSED_LENGTH,
    },
    Fault {
        make: |handed| handed.operands[TOKENS_MAX + 1] = 6,
        refusal: REFUSED_FORMULA,
    },
    Fault {
        make: |handed| handed.windows[2] = 2,
        refusal: REFUSED_WINDOW,
    },
    Fault {
        make: |handed| handed.ranks[0] = 1,
        refusal: REFUSED_RANKS,
    },
];

//! Lines of kind 27 that are answered.

use super::{open_line, run_line, LOGS, NO_TOKEN};
use crate::access::Formula;
use crate::answers::data_file::DataFile;
use crate::inputs::Inputs;
use crate::made::formulas::left_chain;
use crate::made::{logs, rules};
use crate::spec::formulas::{AND, CONSTANT, TOKENS_MAX, VARIABLE};
use crate::spec::lent::RunLog;
use crate::spec::log::{Log, Ranked, RULES_MAX};
use crate::spec::refusals::NONE;
use crate::spec::rule::Rule;

/// Records of a line, around multiples of sixteen.
const COUNTS: [usize; 8] = [16, 0, 33, 1, 15, 31, 17, 40];
/// Words of a line's records that are written out.
const SAID_MAX: usize = 120;

pub fn lines(file: &mut DataFile) {
    let inputs = &mut Inputs::of_kind(LOGS);
    by_hand(file);
    soundings(file, inputs);
    any_rules(file, inputs);
    ranks(file);
    tokens(file, inputs);
    ends(file);
    no_run_gives(file, inputs);
    many_records(file, inputs);
    opens(file, inputs);
}

/// Arrays as long as needed.
pub fn exact(rules: &[Ranked], n: usize) -> RunLog {
    let Rule {
        num_vars, width, ..
    } = rules[0].rule;
    let each = |number: fn(&Ranked) -> u64| rules.iter().map(number).collect();
    let [mut ops, mut operands] = [NO_TOKEN.0, NO_TOKEN.1].map(|no| vec![no; 64 * rules.len()]);
    for (place, Ranked { rule, .. }) in rules.iter().enumerate() {
        put_formula(&mut ops, &mut operands, place, &rule.formula);
    }
    RunLog {
        num_vars: num_vars as u64,
        width: width.into(),
        rules: rules.len() as u64,
        ranks: each(|ranked| ranked.rank.into()),
        ms: each(|ranked| ranked.rule.m as u64),
        windows: each(|ranked| ranked.rule.window as u64),
        token_counts: each(|ranked| ranked.rule.formula.ops.len() as u64),
        ops,
        operands,
        n: n as u64,
        records: (num_vars * n) as u64,
    }
}

/// Writes a formula's tokens to a rule's places.
pub fn put_formula(ops: &mut [u64], operands: &mut [u64], rule: usize, formula: &Formula) {
    for (place, (op, operand)) in (TOKENS_MAX * rule..).zip(formula.tokens()) {
        (ops[place], operands[place]) = (op.into(), operand);
    }
}

/// A line of so many records, whose words repeat, with arrays as long as needed.
fn many(file: &mut DataFile, rules: &[Ranked], n: usize, log: &Log, said: &[u64]) -> Log {
    let handed = exact(rules, n);
    assert_eq!(handed.refusal(), NONE);
    run_line(file, &handed, log, said)
}

/// A line of these records, with arrays as long as needed, or each longer by itself.
fn longer(
    file: &mut DataFile,
    inputs: &mut Inputs,
    rules: &[Ranked],
    log: &Log,
    records: &[u64],
) -> Log {
    let mut handed = exact(rules, records.len() / rules[0].rule.num_vars);
    let mut said = records.to_vec();
    for array in [
        &mut handed.ranks,
        &mut handed.ms,
        &mut handed.windows,
        &mut handed.token_counts,
        &mut handed.ops,
        &mut handed.operands,
    ] {
        let any = inputs.below(12);
        array.extend(inputs.one_of(&[None, None, Some(any)]));
    }
    for _ in 0..inputs.one_of(&[0, 0, 1, 3]) {
        said.push(inputs.below(9));
    }
    handed.records = said.len() as u64;
    // a token past those of a formula, which isn't read
    let place = TOKENS_MAX * inputs.below(rules.len() as u64) as usize;
    let next = place + rules[place / TOKENS_MAX].rule.formula.ops.len();
    if next < place + TOKENS_MAX && inputs.below(3) == 0 {
        handed.ops[next] = inputs.below(9);
    }
    assert_eq!(handed.refusal(), NONE);
    run_line(file, &handed, log, &said)
}

/// A rule that fires where a bit of the only word was set in M of the last WINDOW records.
fn bit(rank: u32, bit: u32, m: usize, window: usize) -> Ranked {
    let formula = left_chain(&[(VARIABLE, 0), (CONSTANT, 1 << bit)], &[AND]);
    let rule = Rule {
        formula,
        num_vars: 1,
        width: 8,
        m,
        window,
    };
    Ranked { rank, rule }
}

/// A line whose closing record, rank and later firings are stated by hand.
fn stated(
    file: &mut DataFile,
    rules: &[Ranked],
    log: &Log,
    records: &[u64],
    told: (u64, u32, u64),
) {
    let next = many(file, rules, records.len(), log, records);
    assert_eq!((next.closed_at, next.rank, next.later), told);
}

/// Burst, rank 1, takes two of three; signal loss, rank 2, two of two.
fn by_hand(file: &mut DataFile) {
    let burst_first = [bit(1, 0, 2, 3), bit(2, 1, 2, 2)];
    let loss_first = [bit(2, 1, 2, 2), bit(1, 0, 2, 3)];
    for rules in [burst_first, loss_first] {
        let open = &open_line(file, &Log::default());
        for (records, told) in [
            (&[0, 3, 3][..], (3, 1, 0)),
            (&[2, 3, 1], (2, 2, 1)),
            (&[1, 1, 2, 2, 3, 3], (2, 1, 4)),
            (&[1, 1, 0, 0, 2, 2], (2, 1, 2)),
            (&[1, 0, 0, 1, 2, 0], (0, 0, 0)),
            (&[], (0, 0, 0)),
            // nonzero from 2^8 up alone
            (&[256 + 1, 1 << 63, 512, 256 + 2], (0, 0, 0)),
        ] {
            stated(file, &rules, open, records, told);
        }
        stated(file, &rules, &Log::default(), &[3, 3, 3], (0, 0, 0));
    }
}

/// Runs of opens and records, from the empty log; none is open at first. The last sounding once more, in one line.
fn soundings(file: &mut DataFile, inputs: &mut Inputs) {
    for (num_vars, width, count) in [(1, 16, 2), (2, 8, 1), (3, 32, 3), (1, 4, 8)] {
        let rules = logs::rules(inputs, num_vars, width, count);
        let mut log = Log::default();
        let mut last = Vec::new();
        for part in [3, 16, 0, 1, 9, 17, 5] {
            let records = logs::records(inputs, &rules, part);
            log = longer(file, inputs, &rules, &log, &records);
            last.extend(records);
            if [3, 1].contains(&part) {
                log = open_line(file, &log);
                last.clear();
            }
        }
        let whole = longer(file, inputs, &rules, &Log::opened(), &last);
        assert_eq!(whole, log);
        assert_eq!(whole, Log::of_sounding(&rules, &last));
    }
}

/// One to eight rules from any log, at each width.
fn any_rules(file: &mut DataFile, inputs: &mut Inputs) {
    for turn in 0..64 {
        let (count, width) = (1 + turn % RULES_MAX, 1 + turn as u32);
        let num_vars = 1 + inputs.below(6).min(inputs.below(6)) as usize;
        let rules = logs::rules(inputs, num_vars, width, count);
        let log = logs::log(inputs, &rules);
        let n = COUNTS[(turn + turn / 8) % COUNTS.len()].min(SAID_MAX / num_vars);
        let records = logs::records(inputs, &rules, n);
        longer(file, inputs, &rules, &log, &records);
    }
}

/// Eight rules on one record, and fewer: each rank is the least, and stands at each place.
fn ranks(file: &mut DataFile) {
    for turn in 0..8u32 {
        let rank = |place: u32| 1 + (3 * place + turn) % 8;
        let rules: Vec<Ranked> = (0..8).map(|place| bit(rank(place), place, 1, 1)).collect();
        let open = &Log::opened();
        stated(file, &rules, open, &[0, 255, 255], (2, 1, 1));
        // the rules of this rank and of greater ones
        let fire = |least: u32| -> u64 {
            let places = (0..8).filter(|&place| rank(place) >= least);
            places.map(|place| 1 << place).sum()
        };
        let least = turn + 1;
        stated(file, &rules, open, &[fire(least), 255], (1, least, 1));
    }
}

/// Formulas of several lengths, up to the longest.
fn tokens(file: &mut DataFile, inputs: &mut Inputs) {
    for counts in [&[64][..], &[63, 1], &[33, 64], &[48, 17, 31], &[2, 1, 2]] {
        let num_vars = 1 + inputs.below(2) as usize;
        let mut all = logs::rules(inputs, num_vars, 16, counts.len());
        for (ranked, &count) in all.iter_mut().zip(counts) {
            ranked.rule.formula = rules::formula(inputs, num_vars as u64, 16, count);
        }
        let records = logs::records(inputs, &all, 17);
        longer(file, inputs, &all, &Log::opened(), &records);
    }
}

/// Number and count of later firings at 2^64 - 1 and just below.
fn ends(file: &mut DataFile) {
    const MOST: u64 = u64::MAX;
    let rules = [bit(5, 0, 1, 1), bit(3, 1, 2, 2)];
    for (number, closed_at, later, records, told) in [
        (MOST - 2, 7, MOST - 3, &[1, 1, 1, 1][..], (7, 9, MOST)),
        (MOST - 4, 7, MOST - 4, &[1, 1, 1, 1], (7, 9, MOST)),
        (MOST - 5, 7, MOST - 5, &[1, 1, 1, 1], (7, 9, MOST - 1)),
        (MOST - 1, MOST, MOST - 1, &[1, 0, 1], (MOST, 9, MOST)),
        (MOST, 7, MOST, &[1, 1], (7, 9, MOST)),
        (MOST, 7, 0, &[0, 1, 0], (7, 9, 1)),
        (MOST - 1, 0, 0, &[1, 1, 1], (MOST, 5, 2)),
        (MOST - 1, 0, MOST, &[0, 3], (MOST, 5, MOST)),
        (MOST, 0, 0, &[0, 2, 2, 2], (MOST, 3, 1)),
        (MOST, 0, 0, &[0, 0], (0, 9, 0)),
        (MOST - 1, 0, 3, &[2, 3], (MOST, 3, 3)),
        // a carry out of the lower half
        ((1 << 32) - 1, 7, (1 << 32) - 1, &[1], (7, 9, 1 << 32)),
    ] {
        let log = Log {
            open: 1,
            rank: 9,
            number,
            closed_at,
            later,
            windows: [0; RULES_MAX],
        };
        stated(file, &rules, &log, records, told);
    }
}

/// Logs that no run gives: with no sounding nothing of them changes; windows past the rules never do.
fn no_run_gives(file: &mut DataFile, inputs: &mut Inputs) {
    for (turn, open) in [0, 2, 256, 1 << 31, u32::MAX, 0, 7, 0, 65536, 1]
        .into_iter()
        .enumerate()
    {
        let rules = logs::rules(inputs, 1, 8, 1 + turn % 4);
        let log = Log {
            open,
            rank: inputs.word() as u32,
            number: inputs.word(),
            closed_at: inputs.one_of(&[0, u64::MAX / (turn as u64 + 1)]),
            later: inputs.word(),
            windows: [(); RULES_MAX].map(|()| inputs.word()),
        };
        let records = logs::records(inputs, &rules, 3 * (turn % 5));
        let next = longer(file, inputs, &rules, &log, &records);
        assert!(open != 0 || next == log);
        assert_eq!(next.windows[rules.len()..], log.windows[rules.len()..]);
    }
}

/// Calls of many records of one word, which repeat where there are more than are written out.
fn many_records(file: &mut DataFile, inputs: &mut Inputs) {
    first_firings(file);
    // never six of the last 64
    let seldom = [bit(8, 0, 6, 64)];
    let marked: Vec<u64> = (0..53).map(|place| u64::from(place == 0)).collect();
    let next = many(file, &seldom, 600, &Log::opened(), &marked);
    assert_eq!((next.closed_at, next.later), (0, 0));
    for (n, said) in [(300, 97), (511, 101), (600, 113), (640, 127)] {
        let rules = logs::rules(inputs, 1, 8, 1 + n % 3);
        let records = logs::records(inputs, &rules, said);
        let open = Log {
            open: 1,
            ..logs::log(inputs, &rules)
        };
        many(file, &rules, n, &open, &records);
    }
    let rules = logs::rules(inputs, 2, 8, 2);
    let records = logs::records(inputs, &rules, 75);
    many(file, &rules, 320, &Log::opened(), &records);
}

/// The first firing around record 256: by one record, and by two in one window.
fn first_firings(file: &mut DataFile) {
    let rules = [bit(8, 0, 2, 3), bit(7, 1, 1, 1)];
    for (n, said, first) in [
        (255, 255, 255),
        (256, 256, 256),
        (257, 257, 257),
        (257, 257, 256),
        (300, 300, 257),
        (300, 300, 300),
        (512, 300, 258),
        (513, 257, 257),
        (600, 300, 256),
        (600, 300, 300),
    ] {
        let mut records = vec![0; said];
        records[first - 1] = 2;
        let next = many(file, &rules, n, &Log::opened(), &records);
        let told = (next.closed_at, next.rank, next.later);
        assert_eq!(told, (first as u64, 7, ((n - first) / said) as u64));
    }
    for (n, marked) in [(300, 255), (600, 256), (600, 257)] {
        let mut records = vec![0; 300];
        records[marked - 1..=marked].fill(1);
        let next = many(file, &rules, n, &Log::opened(), &records);
        assert_eq!((next.closed_at, next.rank), (marked as u64 + 1, 8));
    }
}

/// Any logs opened.
fn opens(file: &mut DataFile, inputs: &mut Inputs) {
    let rules = logs::rules(inputs, 1, 8, 3);
    for _ in 0..8 {
        let log = logs::log(inputs, &rules);
        open_line(file, &log);
    }
}

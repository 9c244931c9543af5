//! Ranked rules, and records with which a sounding is closed early, late or never.

use crate::inputs::Inputs;
use crate::made::formulas::Maker;
use crate::made::rules::{bit_formula, formula, raise};
use crate::spec::log::{Log, Ranked, RULES_MAX};
use crate::spec::rule::Rule;

/// Records that those of a run are picked from.
const POOL: usize = 24;

/// So many rules of formulas that are mostly short, with ranks of their own, at most eight.
pub fn rules(inputs: &mut Inputs, num_vars: usize, width: u32, count: usize) -> Vec<Ranked> {
    let mut ranks = ranks(inputs);
    ranks.truncate(count);
    let ranked = |rank| Ranked {
        rank,
        rule: rule(inputs, num_vars, width),
    };
    ranks.into_iter().map(ranked).collect()
}

/// All ranks in any order.
fn ranks(inputs: &mut Inputs) -> Vec<u32> {
    let mut left: Vec<u32> = (1..=RULES_MAX as u32).collect();
    let mut ranks = Vec::new();
    while !left.is_empty() {
        ranks.push(left.swap_remove(inputs.below(left.len() as u64) as usize));
    }
    ranks
}

fn rule(inputs: &mut Inputs, num_vars: usize, width: u32) -> Rule {
    let most = inputs.one_of(&[1, 4, 8]);
    let tokens = 3 + inputs.below(most) as usize;
    let most = inputs.one_of(&[4, 12, 64]);
    let window = 1 + inputs.below(most);
    let formula = match inputs.below(8) {
        0 => formula(inputs, num_vars as u64, width, tokens),
        _ => bit_formula(inputs, num_vars as u64, width, tokens),
    };
    Rule {
        formula,
        num_vars,
        width,
        m: 1 + inputs.below(window) as usize,
        window: window as usize,
    }
}

/// So many records: the one of a pool at which most formulas are zero, and from the first or any later place on so often any other; here and
/// there a word from 2^width up.
pub fn records(inputs: &mut Inputs, rules: &[Ranked], n: usize) -> Vec<u64> {
    let Rule {
        num_vars, width, ..
    } = rules[0].rule;
    let mut maker = Maker {
        inputs,
        num_vars: num_vars as u64,
        width,
    };
    let pool: Vec<Vec<u64>> = (0..POOL).map(|_| maker.words()).collect();
    let marked = |record: &&Vec<u64>| {
        let marks = rules.iter().map(|ranked| ranked.rule.marks(record)[0]);
        marks.filter(|&mark| mark).count()
    };
    let quiet = pool.iter().min_by_key(marked).expect("a pool has records");
    let one_of = inputs.one_of(&[1, 2, 4, 16, 64]);
    let later = inputs.below(n as u64 + 1) as usize;
    let from = inputs.one_of(&[0, later]);
    let mut records = Vec::new();
    for place in 0..n {
        let any = inputs.below(POOL as u64) as usize;
        let is_quiet = place < from || inputs.below(one_of) > 0;
        let record = if is_quiet { quiet } else { &pool[any] };
        records.extend(record);
        if inputs.below(4) == 0 {
            let place = records.len() - 1 - inputs.below(num_vars as u64) as usize;
            raise(inputs, &mut records[place], width);
        }
    }
    records
}

/// Any log: the empty one, one just opened, one after some records, or numbers that no run gives, many at their ends.
pub fn log(inputs: &mut Inputs, rules: &[Ranked]) -> Log {
    match inputs.below(8) {
        0 => Log::default(),
        1 => Log::opened(),
        2 | 3 => {
            let n = inputs.below(40) as usize;
            Log::of_sounding(rules, &records(inputs, rules, n))
        }
        _ => Log {
            open: inputs.one_of(&[0, 1, 1, 1, 2, 256, u32::MAX]),
            rank: inputs.one_of(&[0, 1, 5, 9, u32::MAX]),
            number: counter(inputs),
            closed_at: inputs.one_of(&[0, 0, 3, u64::MAX]),
            later: counter(inputs),
            windows: [(); RULES_MAX].map(|()| {
                let any = inputs.word();
                inputs.one_of(&[0, any, any, u64::MAX])
            }),
        },
    }
}

/// A number, mostly near the greatest.
fn counter(inputs: &mut Inputs) -> u64 {
    let near = u64::MAX - inputs.below(40);
    let any = inputs.word();
    inputs.one_of(&[0, any, near, near, u64::MAX])
}

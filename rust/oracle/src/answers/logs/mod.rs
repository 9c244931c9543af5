//! The data file logs.txt: closing logs over records, and what is refused of them.

mod answered;
mod refused;

use crate::access::{self, Formula};
use crate::answers::data_file::{DataFile, NUMBERS_MAX};
use crate::answers::rules::ANSWERS;
use crate::spec::formulas::{value, TOKENS_MAX};
use crate::spec::lent::RunLog;
use crate::spec::log::{Log, Ranked};
use crate::spec::refusals::NONE;
use crate::spec::rule::Rule;

const LOGS: u64 = 27;

/// The second number of a line: which call.
const OPEN: u64 = 0;
const RUN: u64 = 1;

/// The most rules that a line writes, and words of the records that it lends.
const WRITTEN_MAX: usize = 10;
const WORDS_MAX: u64 = 640;
/// What stands where no token is written.
const NO_TOKEN: (u64, u64) = (255, 0);

const HEAD: [&str; 31] = [
    "  27 0 LOG.. NEXT..",
    "      A log opened: NEXT is the log after it. A log is thirteen numbers: OPEN, 0 for no, any other for yes; RANK that closed the",
    "      sounding; NUMBER of its last record; CLOSED, that of the record that closed it; LATER, how many after it had a firing; and",
    "      the eight windows, the states of the rules' runs as in rules.txt. OPEN and RANK are below 2^32.",
    "  27 1 LOG.. NEXT.. REFUSAL NV W RULES N RANKSLEN MSLEN WINDOWSLEN COUNTSLEN OPSLEN OPERANDSLEN RECORDSLEN WRITTEN STRIDE SAID",
    "    RANKS.. MS.. WINDOWS.. COUNTS.. OPS.. OPERANDS.. RECORDS..",
    "      A log after N records: NEXT where REFUSAL is 0, else NEXT is LOG. REFUSAL: the least of 1, 2, 4, 6, 10 and 11 that applies.",
    "      RULES rules claimed; the lengths are those of the arrays that are lent.",
    "      RANKS, MS, WINDOWS, COUNTS: WRITTEN numbers each, below 2^32; the array that is lent has the first RANKSLEN (MSLEN ..) of",
    "      them, at most WRITTEN, which is at most 10.",
    "      OPS, OPERANDS: STRIDE numbers for each of WRITTEN rules, opcodes as in formulas.txt. The array that is lent has 64 places",
    "      for each rule, OPSLEN (OPERANDSLEN) in all, at most 64 * WRITTEN: in place 64 * i + j stands number STRIDE * i + j where j",
    "      is below STRIDE, else 255 (0 of operands).",
    "      RECORDS: SAID words, which repeat: word k of the RECORDSLEN that are lent, at most 640, is number k % SAID of them. Record",
    "      k has NV words from NV * k on.",
    "The values are the Rust's, by Evaluator::from_expr and eval, and the specification's are the same. Whether a rule fires is a fresh",
    "count for each record, as in rules.txt.",
    "The first lines are worked out by hand: two rules on one record and on different ones, in either order; firings after the close;",
    "windows that go on after it; no close; no opening. Then come soundings that are opened and cut, each line from the log that the",
    "one before it hands on, and the last sounding of each run in one line; one to eight rules of short formulas from any log, at each",
    "width; every rank as the least of those that fire, at each place; formulas of up to 64 tokens; number and count of later",
    "firings at 2^64 - 1 and just below; logs that no run gives, also without a sounding; windows past the rules; calls of 255 to",
    "640 records of one word, the first firing around record 256; any logs opened. Some words of records are at or above 2^W, and",
    "some arrays longer than needed, with anything in the rest.",
    "After them come refusals and close neighbours that are not refused: each number; arrays one place short, empty, and just",
    "long enough; counts that no array has, some of them small when cut to fewer bits or multiplied by 64 or NV; formulas that lack",
    "something, of the first rule, of the last and of a ninth; an M or a WINDOW at and past the ends of its range; no rule, nine and",
    "ten; ranks at and past the ends of their range, and equal ones; several faults at once; with a sounding and without, also with",
    "no records. A fault of a ninth rule's formula or window counts before 11. The LOG of a refused line is one that no run gives, its",
    "OPEN mostly neither 0 nor 1; where a line isn't refused OPEN comes back as 0 or 1. NV and W are below 2^32. No line has more than",
    "500 numbers.",
];

/// The whole file.
pub fn data_file() -> Vec<u8> {
    let mut file = DataFile::of_answers(ANSWERS, "closing logs over records", "logs", &HEAD);
    answered::lines(&mut file);
    refused::lines(&mut file);
    file.into_bytes()
}

/// A log's numbers.
fn numbers(log: &Log) -> Vec<u64> {
    let Log {
        open,
        rank,
        number,
        closed_at,
        later,
        windows,
    } = *log;
    let shown = [open.into(), rank.into(), number, closed_at, later];
    shown.into_iter().chain(windows).collect()
}

/// The line of a log that is opened.
fn open_line(file: &mut DataFile, log: &Log) -> Log {
    let next = Log::opened();
    file.line(LOGS, &[&[OPEN], &numbers(log), &numbers(&next)]);
    next
}

/// The line of a run over the words that repeat. The log handed on.
fn run_line(file: &mut DataFile, handed: &RunLog, log: &Log, said: &[u64]) -> Log {
    let refusal = handed.refusal();
    let next = match refusal {
        NONE => answered(handed, log, said),
        _ => *log,
    };
    let arrays = arrays(handed);
    let rules = arrays.map(|(array, places)| array.len().div_ceil(places));
    let written = rules.into_iter().max().expect("six arrays");
    let stride = stride(handed);
    let mut line = vec![RUN];
    line.extend(numbers(log));
    line.extend(numbers(&next));
    line.extend([
        refusal,
        handed.num_vars,
        handed.width,
        handed.rules,
        handed.n,
    ]);
    line.extend(arrays.map(|(array, _)| array.len() as u64));
    line.extend([
        handed.records,
        written as u64,
        stride as u64,
        said.len() as u64,
    ]);
    for (array, places) in arrays {
        let taken = stride.min(places);
        for place in (0..written).flat_map(|rule| (0..taken).map(move |at| places * rule + at)) {
            // past the array's end any number
            line.push(array.get(place).copied().unwrap_or(0));
        }
    }
    line.extend(said);
    assert!(line.len() < NUMBERS_MAX, "{} numbers", line.len());
    assert!(written <= WRITTEN_MAX && handed.records <= WORDS_MAX);
    assert!(!said.is_empty() || handed.records == 0);
    file.line(LOGS, &[&line]);
    next
}

/// The arrays of rules, each with how many places a rule has there.
fn arrays(handed: &RunLog) -> [(&[u64], usize); 6] {
    [
        (&handed.ranks, 1),
        (&handed.ms, 1),
        (&handed.windows, 1),
        (&handed.token_counts, 1),
        (&handed.ops, TOKENS_MAX),
        (&handed.operands, TOKENS_MAX),
    ]
}

/// The least number of tokens that must be written of each rule; one at least.
fn stride(handed: &RunLog) -> usize {
    let last = |array: &[u64], none: u64| {
        let written = (0..array.len()).filter(|&place| array[place] != none);
        written.map(|place| place % TOKENS_MAX + 1).max()
    };
    let [ops, operands] = [
        last(&handed.ops, NO_TOKEN.0),
        last(&handed.operands, NO_TOKEN.1),
    ];
    ops.max(operands).unwrap_or(1)
}

/// What is answered. The Rust's values must be the specification's.
fn answered(handed: &RunLog, log: &Log, said: &[u64]) -> Log {
    let rules: Vec<Ranked> = (0..handed.rules as usize)
        .map(|place| ranked(handed, place))
        .collect();
    let words = handed.num_vars * handed.n;
    let records: Vec<u64> = said.iter().copied().cycle().take(words as usize).collect();
    for Ranked { rule, .. } in &rules {
        for record in records.chunks(rule.num_vars) {
            let theirs = access::eval(&rule.formula, rule.width, record);
            assert_eq!(theirs, value(&rule.formula, rule.width, record));
        }
    }
    log.run(&rules, &records)
}

/// The rule at a place.
fn ranked(handed: &RunLog, place: usize) -> Ranked {
    let tokens = TOKENS_MAX * place..TOKENS_MAX * place + handed.token_counts[place] as usize;
    let ops = handed.ops[tokens.clone()].iter();
    let rule = Rule {
        formula: Formula {
            ops: ops.map(|&op| op as u8).collect(),
            operands: handed.operands[tokens].to_vec(),
        },
        num_vars: handed.num_vars as usize,
        width: handed.width as u32,
        m: handed.ms[place] as usize,
        window: handed.windows[place] as usize,
    };
    let rank = handed.ranks[place] as u32;
    Ranked { rank, rule }
}

#[cfg(test)]
mod tests {
    use super::{data_file, LOGS, NUMBERS_MAX, OPEN};
    use crate::access::Formula;
    use crate::spec::formulas::value;

    /// Where the logs, the refusal, what is asked, the lengths and the arrays of a line begin.
    const LOG: usize = 2;
    const NEXT: usize = 15;
    const REFUSAL: usize = 28;
    const NUM_VARS: usize = 29;
    const WIDTH: usize = 30;
    const RULES: usize = 31;
    const N: usize = 32;
    const LENGTHS: usize = 33;
    const WRITTEN: usize = 40;
    const STRIDE: usize = 41;
    const SAID: usize = 42;
    const ARRAYS: usize = 43;
    /// Places of a log's numbers.
    const RANK: usize = 1;
    const NUMBER: usize = 2;
    const CLOSED: usize = 3;
    const LATER: usize = 4;
    const WINDOWS: usize = 5;

    /// A line's numbers.
    struct Line(Vec<u64>);

    impl Line {
        fn at(&self, place: usize) -> usize {
            self.0[place] as usize
        }

        fn log(&self) -> &[u64] {
            &self.0[LOG..NEXT]
        }

        fn next(&self) -> &[u64] {
            &self.0[NEXT..REFUSAL]
        }

        fn is_open(&self) -> bool {
            self.0[1] == OPEN
        }

        fn refusal(&self) -> usize {
            if self.is_open() {
                0
            } else {
                self.at(REFUSAL)
            }
        }

        /// The arrays as they are lent: ranks, M, windows, counts, opcodes, operands, words of records.
        fn lent(&self) -> [Vec<u64>; 7] {
            let (written, stride) = (self.at(WRITTEN), self.at(STRIDE));
            let mut from = ARRAYS;
            let mut taken = |many: usize| {
                from += many;
                &self.0[from - many..from]
            };
            let numbers = [(); 4].map(|()| taken(written));
            let tokens = [(); 2].map(|()| taken(written * stride));
            let said = taken(self.at(SAID));
            assert_eq!(from, self.0.len());
            let length = |array: usize| self.at(LENGTHS + array);
            let token = |tokens: &[u64], place: usize, none: u64| match place % 64 {
                token if token < stride => tokens[stride * (place / 64) + token],
                _ => none,
            };
            let [ranks, ms, windows, counts] =
                [0, 1, 2, 3].map(|array| numbers[array][..length(array)].to_vec());
            let ops = (0..length(4)).map(|place| token(tokens[0], place, 255));
            let operands = (0..length(5)).map(|place| token(tokens[1], place, 0));
            let words = (0..length(6)).map(|word| said[word % said.len()]);
            [
                ranks,
                ms,
                windows,
                counts,
                ops.collect(),
                operands.collect(),
                words.collect(),
            ]
        }

        /// The log once more, by shifts and masks, record by record.
        fn check(&self) {
            if self.is_open() {
                assert_eq!(self.0.len(), REFUSAL);
                assert_eq!(self.next(), [1, 0, 0, 0, 0, 0, 0, 0, 0, 0, 0, 0, 0]);
                return;
            }
            let [ranks, ms, windows, counts, ops, operands, words] = self.lent();
            if self.refusal() != 0 || self.log()[0] == 0 {
                assert_eq!(self.next(), self.log());
                return;
            }
            let mut log = self.log().to_vec();
            log[0] = 1;
            for record in words.chunks_exact(self.at(NUM_VARS)).take(self.at(N)) {
                log[NUMBER] = log[NUMBER].saturating_add(1);
                let mut least = u64::MAX;
                for rule in 0..self.at(RULES) {
                    let tokens = 64 * rule..64 * rule + counts[rule] as usize;
                    let formula = Formula {
                        ops: ops[tokens.clone()].iter().map(|&op| op as u8).collect(),
                        operands: operands[tokens].to_vec(),
                    };
                    let mark = value(&formula, self.0[WIDTH] as u32, record) != 0;
                    let seen = &mut log[WINDOWS + rule];
                    *seen = *seen << 1 | u64::from(mark);
                    let mask = u64::MAX >> (64 - windows[rule]);
                    if u64::from((*seen & mask).count_ones()) >= ms[rule] {
                        least = least.min(ranks[rule]);
                    }
                }
                if least == u64::MAX {
                    continue;
                }
                if log[CLOSED] == 0 {
                    (log[CLOSED], log[RANK]) = (log[NUMBER], least);
                } else {
                    log[LATER] = log[LATER].saturating_add(1);
                }
            }
            assert_eq!(self.next(), log);
        }

        /// Whether its records close the sounding.
        fn closes(&self) -> bool {
            self.log()[CLOSED] == 0 && self.next()[CLOSED] > 0
        }
    }

    fn lines() -> Vec<Line> {
        let text = String::from_utf8(data_file()).expect("text");
        let lines = text.lines().filter(|line| !line.starts_with("# "));
        let numbers = |line: &str| line.split(' ').map(|n| n.parse().unwrap()).collect();
        lines.map(numbers).map(Line).collect()
    }

    #[test]
    fn every_line() {
        let lines = lines();
        assert!((250..450).contains(&lines.len()), "{}", lines.len());
        for line in &lines {
            assert_eq!(line.0[0], LOGS);
            assert!(line.0.len() <= NUMBERS_MAX);
            line.check();
        }
        assert!(data_file().len() < 400_000, "{}", data_file().len());
    }

    /// All that the head says comes up.
    #[test]
    fn what_comes_up() {
        let lines = lines();
        assert!(lines.iter().filter(|line| line.is_open()).count() > 15);
        let runs = || lines.iter().filter(|line| !line.is_open());
        let answered = || runs().filter(|line| line.refusal() == 0);
        let open = || answered().filter(|line| line.log()[0] != 0);
        assert!((1..=64).all(|width| answered().any(|line| line.at(WIDTH) == width)));
        assert!((1..=6).all(|number| answered().any(|line| line.at(NUM_VARS) == number)));
        for rules in 1..=8 {
            assert!(answered().filter(|line| line.at(RULES) == rules).count() > 6);
        }
        for rank in 1..=8 {
            let closed = open().filter(|line| line.closes() && line.next()[RANK] == rank);
            assert!(closed.count() > 1, "{rank}");
        }
        assert!(open().filter(|line| line.next()[CLOSED] == 0).count() > 20);
        let later = |line: &&Line| line.next()[LATER] > line.log()[LATER];
        assert!(open().filter(later).count() > 40);
        for counter in [NUMBER, LATER] {
            let stays = |line: &&Line| line.next()[counter] == u64::MAX;
            assert!(open().filter(stays).count() > 6, "{counter}");
        }
        assert!(answered().filter(|line| line.log()[0] == 0).count() > 10);
        assert!(open().filter(|line| line.log()[0] > 1).count() > 6);
        for n in [0, 1, 15, 16, 17, 31, 33, 255, 256, 257, 300, 512, 600] {
            assert!(open().any(|line| line.at(N) == n), "{n}");
        }
        assert!(open().filter(|line| line.at(N) > 256).count() > 10);
        for number in [1, 2, 4, 6, 10, 11] {
            let refused = runs().filter(|line| line.refusal() == number);
            assert!(refused.count() > 5, "{number}");
        }
        let ninth = |line: &&Line| line.at(RULES) > 8 && line.at(RULES) < 11;
        for number in [4, 6, 10, 11] {
            assert!(runs().filter(ninth).any(|line| line.refusal() == number));
        }
        let past = |line: &&Line| {
            let rules = WINDOWS + line.at(RULES);
            line.log()[rules..].iter().any(|&window| window != 0)
        };
        assert!(open().filter(past).count() > 20);
    }
}

//! The data file rules.txt: rules over records, and what is refused of them.

mod answered;
mod refused;

use crate::access::{self, Formula};
use crate::answers::data_file::DataFile;
use crate::spec::formulas::value;
use crate::spec::lent::RunRule;
use crate::spec::refusals::NONE;
use crate::spec::rule::{Ran, Rule};

const RULES: u64 = 26;

/// The most numbers of a line, and places for answers.
const NUMBERS_MAX: usize = 300;
const PLACES_MAX: u64 = 100;
/// The answers in a word of a line.
const WORD_ANSWERS: usize = 64;

const HEAD: [&str; 21] = [
    "  26 NV W M WINDOW STATE N COUNT OPSLEN OPERANDSLEN RECORDSLEN ANSWERSLEN REFUSAL NEXT OPS.. OPERANDS.. RECORDS.. ANSWERS..",
    "      A rule over N records, from STATE: it fires where the formula's value at width W was nonzero in at least M of the last",
    "      WINDOW records, the present one included. COUNT tokens claimed; OPSLEN opcodes and OPERANDSLEN operands handed in,",
    "      opcodes as in formulas.txt; RECORDSLEN words, of which record k has NV from NV * k on, k from 0; ANSWERSLEN places for",
    "      the answers, at most 100. NEXT: the state that the next records go on from.",
    "      ANSWERS: where REFUSAL is 0 one word for each 64 records that are begun, none for N = 0: bit k % 64 of word k / 64 is",
    "      the answer to record k, and bits past the last are 0. Places past the answers hold what they held before.",
    "      REFUSAL: the least of 1, 2, 4, 6 and 10 that applies; then there are no ANSWERS, all places hold what they held before,",
    "      and NEXT is STATE.",
    "The values are the Rust's, by Evaluator::from_expr and eval, and the specification's are the same. The answers are a fresh count",
    "for each record, over the 64 marks of the state and those of the records up to it.",
    "The first lines are worked out by hand. Then come, with formulas that are mostly short: each window from 1 to 64 with an M of 1",
    "or of as many, some with any; numbers of records around multiples of sixteen, at several variable counts; formulas of 1 to",
    "64 tokens; the empty state, all ones and a single bit at the window's edge; records that are nonzero from 2^W up alone; runs",
    "from the empty state that are cut, each line from the state that the one before it hands on, and the same run in one line.",
    "Records are nonzero nearly as often as the rule takes to fire, where the formula can be both, and some words are at or above",
    "2^W. Some arrays are longer than needed, with anything in the rest.",
    "After them come refusals and close neighbours that are not refused: each number; arrays one place short, empty, and just",
    "long enough; counts that no array has, some of them small when cut to fewer bits or multiplied by NV; formulas that lack",
    "something; an M or a WINDOW at and past the ends of its range, also with no records; several faults at once. NV, W, M and",
    "WINDOW are below 2^32. No line has more than 300 numbers, and N is at most 80 where it isn't refused.",
];

/// Whose answers they are.
pub const ANSWERS: &str =
    "Answers of the specification, over the values of the original Rust (binsnake/cobra, Apache-2.0)";

/// The whole file.
pub fn data_file() -> Vec<u8> {
    let mut file = DataFile::of_answers(ANSWERS, "rules over records", "rules", &HEAD);
    answered::lines(&mut file);
    refused::lines(&mut file);
    file.into_bytes()
}

/// A line. The state handed on.
fn line(file: &mut DataFile, handed: &RunRule, state: u64, records: &[u64]) -> u64 {
    assert_eq!(handed.records, records.len() as u64);
    let refusal = handed.refusal();
    let ran = if refusal == NONE {
        answered(handed, state, records)
    } else {
        let answers = Vec::new();
        Ran { answers, state }
    };
    let asked = [handed.num_vars, handed.width, handed.m, handed.window];
    let claimed = [state, handed.n, handed.count];
    let lengths = [&handed.ops, &handed.operands].map(|array| array.len() as u64);
    let answer = [handed.records, handed.answers, refusal, ran.state];
    let words: Vec<u64> = ran.answers.chunks(WORD_ANSWERS).map(packed).collect();
    let parts: [&[u64]; 8] = [
        &asked,
        &claimed,
        &lengths,
        &answer,
        &handed.ops,
        &handed.operands,
        records,
        &words,
    ];
    let numbers: usize = parts.iter().map(|part| part.len()).sum();
    assert!(numbers < NUMBERS_MAX && handed.answers <= PLACES_MAX);
    assert!(asked.iter().all(|&number| number <= u32::MAX.into()));
    file.line(RULES, &parts);
    ran.state
}

/// What is answered. The Rust's values must be the specification's.
fn answered(handed: &RunRule, state: u64, records: &[u64]) -> Ran {
    let count = handed.count as usize;
    let formula = Formula {
        ops: handed.ops[..count].iter().map(|&op| op as u8).collect(),
        operands: handed.operands[..count].to_vec(),
    };
    let (num_vars, width) = (handed.num_vars as usize, handed.width as u32);
    let records = &records[..num_vars * handed.n as usize];
    for record in records.chunks(num_vars) {
        let theirs = access::eval(&formula, width, record);
        assert_eq!(theirs, value(&formula, width, record));
    }
    let rule = Rule {
        formula,
        num_vars,
        width,
        m: handed.m as usize,
        window: handed.window as usize,
    };
    rule.run(state, records)
}

/// Answers in a word, the first in its lowest bit.
fn packed(answers: &[u8]) -> u64 {
    let bits = answers.iter().zip(0..);
    bits.map(|(&answer, bit)| u64::from(answer) << bit).sum()
}

#[cfg(test)]
mod tests {
    use super::{data_file, NUMBERS_MAX, RULES};
    use crate::access::Formula;
    use crate::spec::formulas::value;

    /// The numbers before the arrays.
    const FIXED: usize = 14;

    /// A line's numbers.
    struct Line(Vec<u64>);

    impl Line {
        fn at(&self, place: usize) -> usize {
            self.0[place] as usize
        }

        /// Opcodes, operands, records and answers, which fill the line.
        fn arrays(&self) -> [&[u64]; 4] {
            let (ops, rest) = self.0[FIXED..].split_at(self.at(8));
            let (operands, rest) = rest.split_at(self.at(9));
            let (records, answers) = rest.split_at(self.at(10));
            [ops, operands, records, answers]
        }

        fn refusal(&self) -> usize {
            self.at(12)
        }

        /// The answers once more, by shifts and a mask; how often it fires.
        fn check(&self) -> usize {
            let [ops, operands, records, answers] = self.arrays();
            if self.refusal() != 0 {
                assert_eq!((self.0[13], answers.len()), (self.0[5], 0));
                return 0;
            }
            let formula = Formula {
                ops: ops[..self.at(7)].iter().map(|&op| op as u8).collect(),
                operands: operands[..self.at(7)].to_vec(),
            };
            let mask = u64::MAX >> (64 - self.at(4));
            let (mut history, mut fired) = (self.0[5], 0);
            let records = records.chunks_exact(self.at(1)).take(self.at(6));
            assert_eq!(answers.len(), self.at(6).div_ceil(64));
            for (k, record) in records.enumerate() {
                let mark = value(&formula, self.0[2] as u32, record) != 0;
                history = history << 1 | u64::from(mark);
                let fires = u64::from((history & mask).count_ones()) >= self.0[3];
                assert_eq!(answers[k / 64] >> (k % 64) & 1 == 1, fires);
                fired += usize::from(fires);
            }
            assert_eq!(history, self.0[13]);
            fired
        }
    }

    fn lines() -> Vec<Line> {
        let text = String::from_utf8(data_file()).expect("text");
        let lines = text.lines().filter(|line| !line.starts_with("# "));
        let numbers = |line: &str| line.split(' ').map(|n| n.parse().unwrap()).collect();
        lines.map(numbers).map(Line).collect()
    }

    #[test]
    fn every_line() {
        let lines = lines();
        assert!((240..320).contains(&lines.len()), "{}", lines.len());
        let (mut records, mut fired) = (0, 0);
        for line in &lines {
            assert_eq!(line.0[0], RULES);
            assert!(line.0.len() <= NUMBERS_MAX);
            let fires = line.check();
            if line.refusal() == 0 {
                assert!(line.at(6) <= 80);
                records += line.at(6);
                fired += fires;
            }
        }
        let share = 100 * fired / records;
        assert!((30..70).contains(&share), "{fired} of {records}");
        assert!(data_file().len() < 400_000, "{}", data_file().len());
    }

    /// All that the head says comes up.
    #[test]
    fn what_comes_up() {
        let lines = lines();
        let answered = || lines.iter().filter(|line| line.refusal() == 0);
        for place in [2, 4] {
            assert!((1..=64).all(|number| answered().any(|line| line.at(place) == number)));
        }
        assert!((1..=6).all(|number| answered().any(|line| line.at(1) == number)));
        assert!(answered().filter(|line| line.at(3) == 1).count() > 30);
        assert!(answered().filter(|line| line.at(3) == line.at(4)).count() > 30);
        assert!(answered().filter(|line| line.0[5] == 0).count() > 30);
        assert!(answered().filter(|line| line.0[5] == u64::MAX).count() > 10);
        for n in [0, 1, 15, 16, 17, 31, 32, 33, 48, 64, 65, 80] {
            assert!(answered().filter(|line| line.at(6) == n).count() > 4, "{n}");
        }
        for count in [1, 2, 3, 10, 63, 64] {
            assert!(answered().any(|line| line.at(7) == count), "{count}");
        }
        for number in [1, 2, 4, 6, 10] {
            let refused = lines.iter().filter(|line| line.refusal() == number);
            assert!(refused.count() > 8, "{number}");
        }
        let longer =
            |line: &&Line| line.at(11) > line.at(6) && line.at(10) > line.at(1) * line.at(6);
        assert!(answered().filter(longer).count() > 10);
        let raised = |line: &&Line| {
            let width = line.at(2);
            line.arrays()[2]
                .iter()
                .any(|&word| u128::from(word) >> width != 0)
        };
        assert!(answered().filter(raised).count() > 100);
    }
}

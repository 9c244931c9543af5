//! A rule over a run of records, by the request's words: for each record a fresh count over the last W, those before the first counted as
//! zero. The values are the originals'.

use crate::access::{evals, Formula};

/// The marks that a state holds.
const STATE_MARKS: usize = 64;

/// A rule: it fires when its formula was nonzero in at least `m` of the last `window` records.
#[derive(Clone, Debug)]
pub struct Rule {
    pub formula: Formula,
    pub num_vars: usize,
    pub width: u32,
    pub m: usize,
    pub window: usize,
}

/// What a rule answers, a byte of 0 or 1 for each record, and the state that continues the run.
#[derive(Clone, Debug, PartialEq, Eq)]
pub struct Ran {
    pub answers: Vec<u8>,
    pub state: u64,
}

impl Rule {
    /// The answers to these records, as many words each as there are variables, after those that a state tells of.
    pub fn run(&self, state: u64, records: &[u64]) -> Ran {
        let mut marks = marks_of(state);
        let mut answers = Vec::new();
        for mark in self.marks(records) {
            marks.push(mark);
            let fires = self.count(&marks) >= self.m;
            answers.push(u8::from(fires));
        }
        Ran {
            answers,
            state: state_of(&marks),
        }
    }

    /// Whether the formula is nonzero, for each record.
    pub fn marks(&self, records: &[u64]) -> Vec<bool> {
        let records = records.chunks_exact(self.num_vars);
        assert!(records.remainder().is_empty(), "whole records");
        let values = evals(&self.formula, self.width, records);
        values.iter().map(|&value| value != 0).collect()
    }

    /// How many of the last W are nonzero.
    fn count(&self, marks: &[bool]) -> usize {
        let first = marks.len().saturating_sub(self.window);
        marks[first..].iter().filter(|&&mark| mark).count()
    }
}

/// The marks before a run's records, the oldest first: bit i of the state is the one i records before the last.
pub fn marks_of(state: u64) -> Vec<bool> {
    let bits = (0..STATE_MARKS as u32).rev();
    bits.map(|bit| state / 2u64.pow(bit) % 2 == 1).collect()
}

/// The state of the last marks.
pub fn state_of(marks: &[bool]) -> u64 {
    let last = &marks[marks.len() - STATE_MARKS..];
    let number = |number: u64, &mark: &bool| 2 * number + u64::from(mark);
    last.iter().fold(0, number)
}

#[cfg(test)]
mod tests {
    use super::{marks_of, state_of, Ran, Rule};
    use crate::access::Formula;
    use crate::inputs::Inputs;
    use crate::spec::formulas::{AND, CONSTANT, NOT, VARIABLE};

    fn rule(tokens: &[(u8, u64)], num_vars: usize, width: u32, m: usize, window: usize) -> Rule {
        let mut formula = Formula::default();
        for &(op, operand) in tokens {
            formula.push(op, operand);
        }
        Rule {
            formula,
            num_vars,
            width,
            m,
            window,
        }
    }

    fn ran(answers: &[u8], state: u64) -> Ran {
        let answers = answers.to_vec();
        Ran { answers, state }
    }

    /// Two of the last three; the state's records before the first; what lies above the width is zero.
    #[test]
    fn by_hand() {
        let v0 = [(VARIABLE, 0)];
        let two_of_three = rule(&v0, 1, 8, 2, 3);
        let records = [5, 0, 255, 256, 1, 0];
        let answers = ran(&[0, 0, 1, 0, 1, 0], 0b101010);
        assert_eq!(two_of_three.run(0, &records), answers);
        assert_eq!(two_of_three.run(0b011, &[0, 1]), ran(&[1, 1], 0b1101));
        assert_eq!(two_of_three.run(0b110, &[0, 1]), ran(&[0, 0], 0b11001));
        assert_eq!(two_of_three.run(7, &[]), ran(&[], 7));
        let both = rule(&[(VARIABLE, 0), (VARIABLE, 1), (AND, 0)], 2, 2, 1, 1);
        assert_eq!(both.run(0, &[1, 3, 2, 1, 4, 4]), ran(&[1, 0, 0], 0b100));
        let not = rule(&[(VARIABLE, 0), (NOT, 0)], 1, 1, 2, 2);
        assert_eq!(not.run(0, &[0, 0, 1]), ran(&[0, 1, 0], 0b110));
        let always = rule(&[(CONSTANT, 1)], 1, 1, 64, 64);
        assert_eq!(always.run(u64::MAX >> 2, &[0; 2]), ran(&[0, 1], u64::MAX));
    }

    /// A state is its marks; one mark more doubles it modulo 2^64.
    #[test]
    fn states() {
        let inputs = &mut Inputs::from_seed(1);
        for _ in 0..100 {
            let state = inputs.word();
            let mut marks = marks_of(state);
            assert_eq!((marks.len(), state_of(&marks)), (64, state));
            marks.push(true);
            assert_eq!(state_of(&marks), state.wrapping_mul(2).wrapping_add(1));
        }
    }

    /// A run that is cut, and each part from the state of the one before it, is the run.
    #[test]
    fn cut() {
        let inputs = &mut Inputs::from_seed(2);
        for turn in 0..200 {
            let window = 1 + turn % 64;
            let m = 1 + inputs.below(window as u64) as usize;
            let rule = rule(&[(VARIABLE, 0)], 1, 1, m, window);
            let records: Vec<u64> = (0..90).map(|_| inputs.word()).collect();
            let (first, second) = records.split_at(inputs.below(91) as usize);
            let [before, whole] = [first, &records].map(|records| rule.run(0, records));
            let after = rule.run(before.state, second);
            let answers = [before.answers, after.answers].concat();
            assert_eq!(ran(&answers, after.state), whole);
        }
    }
}

//! The test load: formulas drawn choice by choice, and the program that writes them. Whether the rest of a length can still leave
//! exactly one value is found by trying every opcode for each token to come.

use std::sync::LazyLock;

use crate::access::{splitmix64, Formula};

use super::formulas::{arity, CONSTANT, NEG, TOKENS_MAX, VARIABLE, VARS_MAX};
use super::refusals::{NONE, REFUSED_FORMULA, REFUSED_TEXT, REFUSED_VARS, REFUSED_WIDTH};
use super::texts::{formula_line, numbers, refusal_line};

/// What the choices are drawn from.
#[derive(Clone, Copy, Debug)]
pub struct Choices {
    pub num_vars: u64,
    pub width: u32,
    pub limit: u64,
}

/// A formula, and the state handed on.
pub fn draw(state: u64, choices: Choices) -> (Formula, u64) {
    let mut draws = Draws { state };
    let mut formula = Formula::default();
    let mut values = 0;
    for left in (0..1 + draws.below(choices.limit)).rev() {
        let op = draws.one_of(&possible(values, left as usize));
        let operand = match op {
            CONSTANT => draws.word_of_width(choices.width),
            VARIABLE => draws.below(choices.num_vars),
            _ => 0,
        };
        formula.push(op, operand);
        values = values_after(values, op).expect("its operands are there");
    }
    (formula, draws.state)
}

/// The state that runs on.
struct Draws {
    state: u64,
}

impl Draws {
    fn word(&mut self) -> u64 {
        let (state, word) = splitmix64(self.state);
        self.state = state;
        word
    }

    fn below(&mut self, bound: u64) -> u64 {
        self.word() % bound
    }

    fn one_of(&mut self, ops: &[u8]) -> u8 {
        ops[self.below(ops.len() as u64) as usize]
    }

    /// A word reduced to the width.
    fn word_of_width(&mut self, width: u32) -> u64 {
        (u128::from(self.word()) % (1 << width)) as u64
    }
}

/// The opcodes in number order.
fn opcodes() -> impl Iterator<Item = u8> {
    CONSTANT..=NEG
}

/// How many values a token leaves of so many, if its operands are among them.
fn values_after(values: usize, op: u8) -> Option<usize> {
    Some(values.checked_sub(arity(op.into()))? + 1)
}

/// The opcodes after which so many tokens more can still leave exactly one value.
fn possible(values: usize, left: usize) -> Vec<u8> {
    let leaves_one =
        |op: &u8| values_after(values, *op).is_some_and(|after| LEAVES_ONE[left][after]);
    opcodes().filter(leaves_one).collect()
}

/// Whether so many tokens, whichever, can leave exactly one value of so many: for each number of tokens to come the numbers of values
/// that the others of 64 can have left.
static LEAVES_ONE: LazyLock<Vec<Vec<bool>>> = LazyLock::new(|| {
    let mut table: Vec<Vec<bool>> = vec![(0..=TOKENS_MAX).map(|values| values == 1).collect()];
    for left in 1..=TOKENS_MAX {
        let fewer = &table[left - 1];
        let some_op_does = |values| {
            let mut after = opcodes().filter_map(|op| values_after(values, op));
            after.any(|after| fewer[after])
        };
        let row = (0..=TOKENS_MAX - left).map(some_op_does).collect();
        table.push(row);
    }
    table
});

/// The formulas of a load, one after the other.
pub struct Load {
    pub state: u64,
    pub choices: Choices,
    /// How many are to come.
    pub left: u64,
}

impl Iterator for Load {
    type Item = Formula;

    fn next(&mut self) -> Option<Formula> {
        self.left = self.left.checked_sub(1)?;
        let (formula, state) = draw(self.state, self.choices);
        self.state = state;
        Some(formula)
    }
}

/// The five numbers of a text: seed, variable count, width, limit and how many formulas.
fn five_numbers(text: &[u8]) -> Option<[u64; 5]> {
    numbers(text)?.try_into().ok()
}

/// The table for the load program: 9 before all, then 1, 2, 6, the least that applies.
pub fn refusal(text: &[u8]) -> u64 {
    let Some([_, num_vars, width, limit, _]) = five_numbers(text) else {
        return REFUSED_TEXT;
    };
    if !(1..=VARS_MAX).contains(&num_vars) {
        REFUSED_VARS
    } else if !(1..=64).contains(&width) {
        REFUSED_WIDTH
    } else if !(1..=TOKENS_MAX as u64).contains(&limit) {
        REFUSED_FORMULA
    } else {
        NONE
    }
}

/// What the load program must print of a text, line by line.
pub fn printed(text: &[u8]) -> Box<dyn Iterator<Item = String>> {
    match (refusal(text), five_numbers(text)) {
        (NONE, Some([seed, num_vars, width, limit, left])) => {
            let load = Load {
                state: seed,
                choices: Choices {
                    num_vars,
                    width: width as u32,
                    limit,
                },
                left,
            };
            Box::new(load.map(|formula| formula_line(&formula)))
        }
        (refusal, _) => Box::new([refusal_line(refusal)].into_iter()),
    }
}

#[cfg(test)]
mod tests {
    use super::{draw, possible, printed, refusal, Choices, Load};
    use crate::spec::formulas::{arity, Handed};
    use crate::spec::refusals::NONE;

    fn load(state: u64, num_vars: u64, width: u32, limit: u64, left: u64) -> Load {
        let choices = Choices {
            num_vars,
            width,
            limit,
        };
        Load {
            state,
            choices,
            left,
        }
    }

    /// The published words from state 1234567, one for each choice: of limit 2 and one variable a length (1 + 1), the only two
    /// opcodes that may come first, the only variable, the only two that may come last.
    #[test]
    fn by_hand() {
        const WORDS: [u64; 4] = [
            6_457_827_717_110_365_317,
            3_203_168_211_198_807_973,
            9_817_491_932_198_370_423,
            4_593_380_528_125_082_431,
        ];
        assert_eq!(WORDS.map(|word| word % 2), [1, 1, 1, 1]);
        let choices = Choices {
            num_vars: 1,
            width: 8,
            limit: 2,
        };
        let (formula, state) = draw(1_234_567, choices);
        assert_eq!((formula.ops, formula.operands), (vec![1, 8], vec![0, 0]));
        let step = 0x9E37_79B9_7F4A_7C15_u64;
        assert_eq!(state, step.wrapping_mul(4).wrapping_add(1_234_567));
    }

    /// Of all strings of up to five tokens, those that leave one value are the ones that the choices reach; and each choice leads on.
    #[test]
    fn choices_reach_every_shape() {
        for length in 1..=5u32 {
            let mut reached = Vec::new();
            grow(&mut Vec::new(), 0, length as usize, &mut reached);
            let all = (0..9u64.pow(length)).map(|code| {
                let digit = |place| (code / 9u64.pow(length - 1 - place) % 9) as u8;
                (0..length).map(digit).collect::<Vec<u8>>()
            });
            let formulas: Vec<Vec<u8>> = all.filter(|ops| is_formula(ops)).collect();
            assert_eq!(reached, formulas);
        }
    }

    fn grow(ops: &mut Vec<u8>, values: usize, left: usize, reached: &mut Vec<Vec<u8>>) {
        if left == 0 {
            reached.push(ops.clone());
            return;
        }
        let possible = possible(values, left - 1);
        assert!(!possible.is_empty());
        for op in possible {
            ops.push(op);
            grow(ops, values - arity(op.into()) + 1, left - 1, reached);
            ops.pop();
        }
    }

    fn is_formula(ops: &[u8]) -> bool {
        handed(ops, &vec![0; ops.len()], 1).cost_refusal() == NONE
    }

    fn handed(ops: &[u8], operands: &[u64], num_vars: u64) -> Handed {
        Handed {
            num_vars,
            width: 8,
            count: ops.len() as u64,
            ops: ops.iter().copied().map(u64::from).collect(),
            operands: operands.to_vec(),
            words: Vec::new(),
        }
    }

    /// Each formula passes the test and keeps to limit, variables and width; all lengths and opcodes come up; a load goes on from
    /// the state of its beginning.
    #[test]
    fn every_formula_passes() {
        for (num_vars, width, limit) in [(1, 1, 1), (2, 8, 7), (6, 63, 64), (3, 64, 64)] {
            let formulas: Vec<_> = load(5, num_vars, width, limit, 2000).collect();
            for formula in &formulas {
                let handed = handed(&formula.ops, &formula.operands, num_vars);
                assert_eq!(handed.cost_refusal(), NONE);
                let constants = formula.tokens().filter(|&(op, _)| op == 0);
                for (_, word) in constants {
                    assert_eq!(u128::from(word) >> width, 0);
                }
            }
            let lengths = 1..=limit as usize;
            assert!(lengths
                .clone()
                .all(|length| formulas.iter().any(|formula| formula.ops.len() == length)));
            assert!(formulas
                .iter()
                .all(|formula| lengths.contains(&formula.ops.len())));
            let mut first = load(5, num_vars, width, limit, 700);
            let mut joined: Vec<_> = first.by_ref().collect();
            joined.extend(load(first.state, num_vars, width, limit, 1300));
            assert_eq!(joined, formulas);
        }
    }

    #[test]
    fn texts() {
        let lines = |text: &str| printed(text.as_bytes()).collect::<String>();
        for (text, line) in [
            ("", "refused 9\n"),
            ("1 2 32 7", "refused 9\n"),
            ("1 2 32 7 3 0", "refused 9\n"),
            ("1 0 0 0 0", "refused 1\n"),
            ("1 4294967297 32 7 0", "refused 1\n"),
            ("1 6 65 65 0", "refused 2\n"),
            ("1 6 64 65 0", "refused 6\n"),
            ("1 6 64 0 0", "refused 6\n"),
            ("1 6 64 64 0", ""),
            ("1234567 1 8 2 1", "v0 -\n"),
        ] {
            assert_eq!(lines(text), line, "{text}");
        }
        assert_eq!(refusal(b"\n01 002 32\r7 1 "), NONE);
        let three = lines("1 2 32 7 3");
        assert_eq!(three.lines().count(), 3);
        assert!(lines("\r1 2 32 7 300\n\n").starts_with(&three));
        assert_eq!(
            printed(b"1 2 32 7 18446744073709551615")
                .take(3)
                .collect::<String>(),
            three
        );
    }
}

//! Lines of kind 10: what the specification's table refuses, and close neighbours that it does not. The Rust is not asked.
//! A named case states its refusals by hand, and the table must say the same.

use crate::access::Formula;

use super::made::{left_chain, right_chain, unary_chain, Lean, Maker};
use super::REFUSED;
use crate::answers::data_file::DataFile;
use crate::inputs::Inputs;
use crate::spec::formulas::{Handed, ADD, CONSTANT, GATES, MUL, NEG, NOT, VARIABLE, VARS_MAX, XOR};
use crate::spec::refusals::{
    least, NONE, REFUSED_FORMULA, REFUSED_LENGTH, REFUSED_VARS, REFUSED_WIDTH,
};

const V0: (u8, u64) = (VARIABLE, 0);
const BAD_VARS: [u64; 4] = [0, 7, 8, u32::MAX as u64];
const BAD_WIDTHS: [u64; 5] = [0, 65, 66, 128, u32::MAX as u64];
const BAD_OPS: [u64; 6] = [9, 10, 13, 64, 128, 255];
/// Operands that are not 0, though some of their parts are.
const NONZERO: [u64; 4] = [1, 256, 1 << 32, u64::MAX];
const ARRAY_MAX: usize = 80;
const DAMAGED: usize = 72;

pub fn lines(file: &mut DataFile) {
    let mut lines = Lines {
        file,
        inputs: Inputs::of_kind(REFUSED),
    };
    lines.good();
    lines.variable_counts();
    lines.widths();
    lines.short_arrays();
    lines.huge_counts();
    lines.token_counts();
    lines.opcodes();
    lines.unused_operands();
    lines.variables();
    lines.missing_operands();
    lines.values_left();
    lines.two_conditions();
    lines.three_conditions();
    lines.damaged();
}

struct Lines<'a> {
    file: &'a mut DataFile,
    inputs: Inputs,
}

impl Lines<'_> {
    /// A named case: refused so for evaluating, so for the cost.
    fn case(&mut self, handed: &Handed, eval: u64, cost: u64) {
        assert_eq!((handed.eval_refusal(), handed.cost_refusal()), (eval, cost));
        self.line(handed);
    }

    fn line(&mut self, handed: &Handed) {
        let (ops, operands, words) = (&handed.ops, &handed.operands, &handed.words);
        let lengths = [ops, operands, words].map(|array| {
            assert!(array.len() <= ARRAY_MAX);
            array.len() as u64
        });
        assert!(ops.iter().all(|&op| op <= u64::from(u8::MAX)));
        let head = [handed.num_vars, handed.width, handed.count];
        let refusals = [handed.eval_refusal(), handed.cost_refusal()];
        let parts: [&[u64]; 6] = [&head, &lengths, ops, operands, words, &refusals];
        self.file.line(REFUSED, &parts);
    }

    /// A formula at width 8 with its exact arrays and a word for each of two variables.
    fn hand(&mut self, formula: &Formula) -> Handed {
        self.hand_over(formula, 2, 8)
    }

    fn hand_over(&mut self, formula: &Formula, num_vars: u64, width: u32) -> Handed {
        Handed {
            num_vars,
            width: width.into(),
            count: formula.ops.len() as u64,
            ops: formula.ops.iter().map(|&op| op.into()).collect(),
            operands: formula.operands.clone(),
            words: (0..num_vars)
                .map(|_| self.inputs.word_of_width(width))
                .collect(),
        }
    }

    fn random(&mut self, num_vars: u64, count: usize) -> Formula {
        let mut maker = Maker {
            inputs: &mut self.inputs,
            num_vars,
            width: 8,
        };
        maker.formula(count, Lean::Any)
    }

    /// Nothing to refuse: the ends of each range, arrays longer than needed with anything in the rest.
    fn good(&mut self) {
        for num_vars in 1..=VARS_MAX {
            let formula = unary_chain((VARIABLE, num_vars - 1), &[NOT]);
            let handed = self.hand_over(&formula, num_vars, 8);
            self.case(&handed, NONE, NONE);
        }
        for width in [1, 2, 63, 64] {
            let formula = self.random(2, 5);
            let handed = self.hand_over(&formula, 2, width);
            self.case(&handed, NONE, NONE);
        }
        for count in [1, 2, 3, 63, 64] {
            let formula = self.random(2, count);
            let mut handed = self.hand(&formula);
            self.case(&handed, NONE, NONE);
            handed.ops.extend([255, 9, 2]);
            handed.operands.extend([u64::MAX, 1]);
            handed.words.push(u64::MAX);
            self.case(&handed, NONE, NONE);
        }
        let words_only = |handed: &mut Handed| handed.words.resize(ARRAY_MAX, 1);
        let ops_only = |handed: &mut Handed| handed.ops.resize(ARRAY_MAX, 7);
        let operands_only = |handed: &mut Handed| handed.operands.resize(ARRAY_MAX, 7);
        for lengthen in [words_only, ops_only, operands_only] {
            let mut handed = self.hand(&left_chain(&[V0, V0], &[XOR]));
            lengthen(&mut handed);
            self.case(&handed, NONE, NONE);
        }
    }

    fn variable_counts(&mut self) {
        for num_vars in BAD_VARS {
            for leaf in [(CONSTANT, 5), V0] {
                let mut handed = self.hand(&unary_chain(leaf, &[NEG]));
                handed.num_vars = num_vars;
                handed.words.resize(num_vars.min(8) as usize, 3);
                self.case(&handed, REFUSED_VARS, REFUSED_VARS);
            }
        }
    }

    fn widths(&mut self) {
        for width in BAD_WIDTHS {
            for formula in [unary_chain(V0, &[]), left_chain(&[V0, V0], &[MUL])] {
                let mut handed = self.hand(&formula);
                handed.width = width;
                self.case(&handed, REFUSED_WIDTH, NONE);
            }
        }
    }

    fn short_arrays(&mut self) {
        for (count, kept) in [(1, 0), (2, 1), (3, 0), (3, 2), (8, 7), (64, 0), (64, 63)] {
            let formula = self.random(2, count);
            let handed = self.hand(&formula);
            let mut short_ops = handed.clone();
            short_ops.ops.truncate(kept);
            self.case(&short_ops, REFUSED_LENGTH, REFUSED_LENGTH);
            let mut short_operands = handed;
            short_operands.operands.truncate(kept);
            self.case(&short_operands, REFUSED_LENGTH, REFUSED_LENGTH);
        }
        for (num_vars, kept) in [(1, 0), (2, 0), (2, 1), (6, 0), (6, 5)] {
            let mut handed = self.hand_over(&unary_chain(V0, &[NOT]), num_vars, 8);
            handed.words.truncate(kept);
            self.case(&handed, REFUSED_LENGTH, NONE);
            handed.ops.truncate(1);
            self.case(&handed, REFUSED_LENGTH, REFUSED_LENGTH);
        }
        // the formula names no variable past the words that are there
        let mut handed = self.hand_over(&unary_chain((CONSTANT, 9), &[]), 3, 8);
        handed.words.truncate(2);
        self.case(&handed, REFUSED_LENGTH, NONE);
    }

    /// Counts far beyond the arrays, some of them small when cut to fewer bits.
    fn huge_counts(&mut self) {
        let counts = [4, 64, 65, 80, 81, 256 + 3, (1 << 32) + 3, 1 << 63, u64::MAX];
        for count in counts {
            let mut handed = self.hand(&left_chain(&[V0, V0], &[ADD]));
            handed.count = count;
            self.case(&handed, REFUSED_LENGTH, REFUSED_LENGTH);
        }
    }

    /// No token, and more than 64, in arrays that are long enough.
    fn token_counts(&mut self) {
        let mut handed = self.hand(&unary_chain(V0, &[NOT]));
        handed.count = 0;
        self.case(&handed, REFUSED_FORMULA, REFUSED_FORMULA);
        handed.ops.clear();
        handed.operands.clear();
        self.case(&handed, REFUSED_FORMULA, REFUSED_FORMULA);
        for count in [65, 66, 80] {
            let formula = self.random(2, count);
            let mut handed = self.hand(&formula);
            self.case(&handed, REFUSED_FORMULA, REFUSED_FORMULA);
            handed.ops.truncate(count - 1);
            self.case(&handed, REFUSED_LENGTH, REFUSED_LENGTH);
        }
        let chains = [unary_chain(V0, &[NOT; 64]), unary_chain(V0, &[NEG; 63])];
        for (formula, refusal) in chains.iter().zip([REFUSED_FORMULA, NONE]) {
            let handed = self.hand(formula);
            self.case(&handed, refusal, refusal);
        }
        let chains = [
            right_chain(&[V0; 33], &[XOR; 32]),
            right_chain(&[V0; 32], &[XOR; 31]),
        ];
        for (formula, refusal) in chains.iter().zip([REFUSED_FORMULA, NONE]) {
            let handed = self.hand(formula);
            self.case(&handed, refusal, refusal);
        }
    }

    /// An unknown opcode at the first, a middle and the last place.
    fn opcodes(&mut self) {
        for op in BAD_OPS {
            for place in [0, 2, 4] {
                let mut handed = self.hand(&left_chain(&[V0, V0, V0], &[ADD, MUL]));
                handed.ops[place] = op;
                self.case(&handed, REFUSED_FORMULA, REFUSED_FORMULA);
            }
        }
    }

    fn unused_operands(&mut self) {
        for nonzero in NONZERO {
            for gate in GATES {
                self.operand_of_last(&left_chain(&[V0, V0], &[gate]), nonzero);
            }
            for op in [NOT, NEG] {
                self.operand_of_last(&unary_chain(V0, &[op]), nonzero);
            }
        }
        // not the last token
        let mut handed = self.hand(&left_chain(&[V0, V0, V0], &[ADD, MUL]));
        handed.operands[2] = 1;
        self.case(&handed, REFUSED_FORMULA, REFUSED_FORMULA);
    }

    fn operand_of_last(&mut self, formula: &Formula, operand: u64) {
        let mut handed = self.hand(formula);
        let last = handed.operands.len() - 1;
        handed.operands[last] = operand;
        self.case(&handed, REFUSED_FORMULA, REFUSED_FORMULA);
    }

    /// Variables from the count upward, more input words than that or not.
    fn variables(&mut self) {
        for num_vars in 1..=VARS_MAX {
            let formula = unary_chain((VARIABLE, num_vars), &[NOT]);
            let mut handed = self.hand_over(&formula, num_vars, 8);
            self.case(&handed, REFUSED_FORMULA, REFUSED_FORMULA);
            handed.words.resize(7, 5);
            self.case(&handed, REFUSED_FORMULA, REFUSED_FORMULA);
        }
        for variable in [7, 255, 256, 1 << 32, u64::MAX] {
            let formula = left_chain(&[V0, (VARIABLE, variable)], &[ADD]);
            let handed = self.hand(&formula);
            self.case(&handed, REFUSED_FORMULA, REFUSED_FORMULA);
        }
    }

    /// Also where the number of leaves is right for the whole.
    fn missing_operands(&mut self) {
        let tokens: [&[u8]; 12] = [
            &[NOT],
            &[NEG],
            &[ADD],
            &[VARIABLE, MUL],
            &[NOT, VARIABLE],
            &[NEG, CONSTANT],
            &[ADD, VARIABLE, VARIABLE],
            &[VARIABLE, XOR, VARIABLE],
            &[VARIABLE, NOT, ADD],
            &[VARIABLE, ADD, VARIABLE, VARIABLE, ADD],
            &[VARIABLE, VARIABLE, ADD, MUL, VARIABLE],
            &[VARIABLE, VARIABLE, ADD, XOR],
        ];
        for ops in tokens {
            self.bare_tokens(ops);
        }
        for gate in GATES {
            self.bare_tokens(&[gate]);
            self.bare_tokens(&[CONSTANT, gate]);
        }
        self.bare_tokens(&[NOT; 64]);
        self.bare_tokens(&[ADD; 64]);
    }

    fn values_left(&mut self) {
        let tokens: [&[u8]; 6] = [
            &[VARIABLE, VARIABLE],
            &[CONSTANT, VARIABLE],
            &[VARIABLE, VARIABLE, NOT],
            &[VARIABLE, VARIABLE, VARIABLE, ADD],
            &[VARIABLE, VARIABLE, MUL, VARIABLE],
            &[VARIABLE, NOT, VARIABLE, NEG],
        ];
        for ops in tokens {
            self.bare_tokens(ops);
        }
        self.bare_tokens(&[VARIABLE; 64]);
        self.bare_tokens(&[CONSTANT; 64]);
        let mut two_left = vec![VARIABLE; 33];
        two_left.resize(64, XOR);
        self.bare_tokens(&two_left);
    }

    /// Opcodes that make no formula, with operands 0.
    fn bare_tokens(&mut self, ops: &[u8]) {
        let formula = Formula {
            ops: ops.to_vec(),
            operands: vec![0; ops.len()],
        };
        let handed = self.hand(&formula);
        self.case(&handed, REFUSED_FORMULA, REFUSED_FORMULA);
    }

    /// Each two of: variable count, width, token arrays, input words, formula. The least number counts.
    fn two_conditions(&mut self) {
        for (first, one) in FAULTS.iter().enumerate() {
            for other in &FAULTS[first + 1..] {
                for count in [3, 11] {
                    let formula = self.random(2, count);
                    let mut handed = self.hand(&formula);
                    (one.make)(&mut handed);
                    (other.make)(&mut handed);
                    let eval = least(one.eval, other.eval);
                    let cost = least(one.cost, other.cost);
                    self.case(&handed, eval, cost);
                }
            }
        }
    }

    /// All faults but two, and all.
    fn three_conditions(&mut self) {
        for kept in 0..=2 {
            let formula = self.random(2, 7);
            let mut handed = self.hand(&formula);
            let faults = &FAULTS[kept..];
            for fault in faults {
                (fault.make)(&mut handed);
            }
            let eval = faults.iter().map(|fault| fault.eval).fold(NONE, least);
            let cost = faults.iter().map(|fault| fault.cost).fold(NONE, least);
            self.case(&handed, eval, cost);
        }
    }

    /// Good formulas with one opcode or operand changed; some stay good.
    fn damaged(&mut self) {
        for turn in 0..DAMAGED {
            let num_vars = 1 + self.inputs.below(VARS_MAX);
            let count = 3 + self.inputs.below(12) as usize;
            let formula = self.random(num_vars, count);
            let width = 1 + self.inputs.below(64) as u32;
            let mut handed = self.hand_over(&formula, num_vars, width);
            let place = self.inputs.below(count as u64) as usize;
            if turn % 3 == 0 {
                handed.operands[place] = self.inputs.one_of(&[0, 1, 2, 3, 6, u64::MAX]);
            } else {
                handed.ops[place] = self.inputs.below(10);
            }
            self.line(&handed);
        }
    }
}

/// Something wrong, and what it alone is refused with.
struct Fault {
    make: fn(&mut Handed),
    eval: u64,
    cost: u64,
}

const FAULTS: [Fault; 5] = [
    Fault {
        make: |handed| handed.num_vars = if handed.count > 5 { 0 } else { 7 },
        eval: REFUSED_VARS,
        cost: REFUSED_VARS,
    },
    Fault {
        make: |handed| handed.width = if handed.count > 5 { 0 } else { 65 },
        eval: REFUSED_WIDTH,
        cost: NONE,
    },
    Fault {
        make: |handed| {
            let array = if handed.count > 5 {
                &mut handed.ops
            } else {
                &mut handed.operands
            };
            array.pop();
        },
        eval: REFUSED_LENGTH,
        cost: REFUSED_LENGTH,
    },
    Fault {
        make: |handed| {
            handed.words.pop();
        },
        eval: REFUSED_LENGTH,
        cost: NONE,
    },
    Fault {
        make: |handed| handed.ops[0] = if handed.count > 5 { 9 } else { 7 },
        eval: REFUSED_FORMULA,
        cost: REFUSED_FORMULA,
    },
];

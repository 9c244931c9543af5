//! Why tokens are no formula, and the error of the calls over a formula.

use crate::{Formula, Refusal, Token, FORMULA_TOKENS_MAX};
use std::error::Error;
use std::fmt;

/// What keeps tokens from being a formula: how many they are, else the first thing from left to right. Places count from 1.
#[derive(Clone, Copy, Debug, PartialEq, Eq, Hash)]
pub enum Fault {
    /// There is no token.
    NoToken,
    /// There are over 64 tokens.
    TooLong {
        /// How many.
        tokens: usize,
    },
    /// An opcode above 8, or an operand with an opcode that takes none.
    NoSuchToken {
        /// Its place.
        place: usize,
        /// Its opcode.
        opcode: u8,
        /// Its operand.
        operand: u64,
    },
    /// A variable whose number is not below the count.
    NoSuchVariable {
        /// Its place.
        place: usize,
        /// Its number.
        number: u64,
        /// How many variables there are.
        num_vars: u32,
    },
    /// A token with fewer values before it than it takes.
    OperandMissing {
        /// Its place.
        place: usize,
        /// The token.
        token: Token,
        /// How many values are there.
        values: usize,
    },
    /// More than one value is left at the end.
    ValuesLeft {
        /// How many.
        values: usize,
    },
}

impl fmt::Display for Fault {
    fn fmt(&self, f: &mut fmt::Formatter<'_>) -> fmt::Result {
        match *self {
            Fault::NoToken => write!(f, "no token: a formula has 1 to {FORMULA_TOKENS_MAX}"),
            Fault::TooLong { tokens } => {
                write!(f, "{tokens} tokens: a formula has 1 to {FORMULA_TOKENS_MAX}")
            }
            Fault::NoSuchToken {
                place,
                opcode: opcode @ 2..=8,
                operand,
            } => write!(
                f,
                "opcode {opcode} with operand {operand} at token {place}: opcodes 2 to 8 have operand 0"
            ),
            Fault::NoSuchToken { place, opcode, .. } => {
                write!(f, "opcode {opcode} at token {place}: opcodes are 0 to 8")
            }
            Fault::NoSuchVariable {
                place,
                number,
                num_vars,
            } => write!(f, "v{number} at token {place}: {}", variables(num_vars)),
            Fault::OperandMissing {
                place,
                token,
                values,
            } => {
                let takes = if token.values_taken() == 1 { "one value" } else { "two values" };
                let there = if values == 0 { "none" } else { "one" };
                write!(f, "{token} at token {place}: takes {takes} and {there} is there; postfix has operands first")
            }
            Fault::ValuesLeft { values } => write!(
                f,
                "{values} values are left where one is wanted: a gate is missing (! and - take one value, the others two; v0 v1 - + is v0 - v1)"
            ),
        }
    }
}

/// Which variables there are.
fn variables(num_vars: u32) -> String {
    match num_vars {
        0 => "there are no variables".to_owned(),
        1 => "the only variable is v0".to_owned(),
        2 => "variables are v0 and v1".to_owned(),
        _ => format!("variables are v0 to v{}", num_vars - 1),
    }
}

impl Formula<'_> {
    /// What keeps the tokens from being a formula over so many variables; none exactly if [`is_formula`](crate::is_formula) holds.
    pub fn fault(self, num_vars: u32) -> Option<Fault> {
        if self.is_empty() {
            return Some(Fault::NoToken);
        }
        if self.len() > FORMULA_TOKENS_MAX {
            return Some(Fault::TooLong { tokens: self.len() });
        }
        let mut values = 0;
        for (place, token) in (1..).zip(self.tokens()) {
            if let Some(fault) = token_fault(place, token, num_vars, values) {
                return Some(fault);
            }
            values = values + 1 - token.values_taken();
        }
        (values > 1).then_some(Fault::ValuesLeft { values })
    }
}

/// What is wrong with a token over so many variables that comes after so many values.
fn token_fault(place: usize, token: Token, num_vars: u32, values: usize) -> Option<Fault> {
    match token {
        Token::Bad(opcode, operand) => Some(Fault::NoSuchToken {
            place,
            opcode,
            operand,
        }),
        Token::Variable(number) if number >= num_vars.into() => Some(Fault::NoSuchVariable {
            place,
            number,
            num_vars,
        }),
        _ if values < token.values_taken() => Some(Fault::OperandMissing {
            place,
            token,
            values,
        }),
        _ => None,
    }
}

/// Why a call over a formula was refused; for number 6 with the formula's fault, where the formula was at hand.
#[derive(Clone, Copy, Debug, PartialEq, Eq, Hash)]
pub struct FormulaError {
    refusal: Refusal,
    fault: Option<Fault>,
}

impl FormulaError {
    /// The refusal of a call over this formula.
    pub(crate) fn new(refusal: Refusal, num_vars: u32, formula: Formula<'_>) -> Self {
        let fault = match refusal {
            Refusal::Formula => formula.fault(num_vars),
            _ => None,
        };
        FormulaError { refusal, fault }
    }

    /// The refusal.
    pub fn refusal(self) -> Refusal {
        self.refusal
    }

    /// What is wrong with the formula; none for other refusals than 6, and for one that came from a [`Refusal`] alone.
    pub fn fault(self) -> Option<Fault> {
        self.fault
    }
}

impl fmt::Display for FormulaError {
    fn fmt(&self, f: &mut fmt::Formatter<'_>) -> fmt::Result {
        match self.fault {
            Some(fault) => write!(f, "refused {}: {fault}", self.refusal.number()),
            None => self.refusal.fmt(f),
        }
    }
}

impl Error for FormulaError {}

/// The refusal, without the fault.
impl From<FormulaError> for Refusal {
    fn from(error: FormulaError) -> Self {
        error.refusal
    }
}

/// A refusal that is of no formula: of the target row, say, in a call that takes both.
impl From<Refusal> for FormulaError {
    fn from(refusal: Refusal) -> Self {
        FormulaError {
            refusal,
            fault: None,
        }
    }
}

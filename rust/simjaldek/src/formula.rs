//! Formulas in postfix: opcodes and operands in two arrays of one length, read as tokens.

use crate::lent::{reduce, Tokens};
use crate::parse::{is_decimal, ParseFormulaError, ParseTokenError};
use std::fmt;
use std::str::FromStr;

/// One token of a formula.
#[derive(Clone, Copy, Debug, PartialEq, Eq, Hash)]
pub enum Token {
    /// Opcode 0: a constant, taken modulo 2^w.
    Constant(u64),
    /// Opcode 1: the variable of this number.
    Variable(u64),
    /// Opcode 2.
    Add,
    /// Opcode 3.
    Mul,
    /// Opcode 4.
    And,
    /// Opcode 5.
    Or,
    /// Opcode 6.
    Xor,
    /// Opcode 7.
    Not,
    /// Opcode 8.
    Neg,
    /// Any other opcode and operand: in no formula.
    Bad(u8, u64),
}

/// The tokens without an operand with their opcodes and signs.
const PLAIN: [(Token, u8, &str); 7] = [
    (Token::Add, 2, "+"),
    (Token::Mul, 3, "*"),
    (Token::And, 4, "&"),
    (Token::Or, 5, "|"),
    (Token::Xor, 6, "^"),
    (Token::Not, 7, "!"),
    (Token::Neg, 8, "-"),
];

impl Token {
    /// The opcode that no token has.
    const NO_OPCODE: u8 = 255;

    /// The token of an opcode and an operand.
    pub fn of(opcode: u8, operand: u64) -> Self {
        match (opcode, operand) {
            (0, word) => Token::Constant(word),
            (1, number) => Token::Variable(number),
            (_, 0) => PLAIN
                .iter()
                .find(|plain| plain.1 == opcode)
                .map_or(Token::Bad(opcode, 0), |plain| plain.0),
            _ => Token::Bad(opcode, operand),
        }
    }

    /// Its opcode and operand; opcode 255 for a [`Token::Bad`] of a token's opcode and operand.
    pub fn parts(self) -> (u8, u64) {
        match self {
            Token::Constant(word) => (0, word),
            Token::Variable(number) => (1, number),
            Token::Add => (2, 0),
            Token::Mul => (3, 0),
            Token::And => (4, 0),
            Token::Or => (5, 0),
            Token::Xor => (6, 0),
            Token::Not => (7, 0),
            Token::Neg => (8, 0),
            // what would be a token stays none
            Token::Bad(opcode, operand) => match Token::of(opcode, operand) {
                Token::Bad(..) => (opcode, operand),
                _ => (Token::NO_OPCODE, operand),
            },
        }
    }

    /// How many of the values before it the token takes; it leaves one.
    pub(crate) fn values_taken(self) -> usize {
        match self {
            Token::Constant(_) | Token::Variable(_) | Token::Bad(..) => 0,
            Token::Not | Token::Neg => 1,
            Token::Add | Token::Mul | Token::And | Token::Or | Token::Xor => 2,
        }
    }
}

/// As in the listing: `c` and a word, `v` and a number, `+ * & | ^ ! -`; `?` for what is no token.
impl fmt::Display for Token {
    fn fmt(&self, f: &mut fmt::Formatter<'_>) -> fmt::Result {
        match self {
            Token::Constant(word) => write!(f, "c{word}"),
            Token::Variable(number) => write!(f, "v{number}"),
            other => {
                let plain = PLAIN.iter().find(|plain| plain.0 == *other);
                f.write_str(plain.map_or("?", |plain| plain.2))
            }
        }
    }
}

/// Reads what `Display` writes, except `?`; a number may begin with zeros.
impl FromStr for Token {
    type Err = ParseTokenError;

    fn from_str(word: &str) -> Result<Self, ParseTokenError> {
        let plain = PLAIN.iter().find(|plain| plain.2 == word);
        let constant = || number_after('c', word).map(Token::Constant);
        let variable = || number_after('v', word).map(Token::Variable);
        plain
            .map(|plain| plain.0)
            .or_else(constant)
            .or_else(variable)
            .ok_or_else(|| ParseTokenError::new(word))
    }
}

/// The number below 2^64 that stands after the letter in decimal digits.
fn number_after(letter: char, word: &str) -> Option<u64> {
    let digits = word.strip_prefix(letter)?;
    // `parse` takes a sign too
    is_decimal(digits).then(|| digits.parse().ok())?
}

/// A constant of a formula that isn't below 2^w: its word modulo 2^w counts.
#[derive(Clone, Copy, Debug, PartialEq, Eq, Hash)]
pub struct CutConstant {
    /// Its place among the tokens, from 1.
    pub place: usize,
    /// The word as it stands there.
    pub word: u64,
    /// The word that counts.
    pub counts_as: u64,
    /// The width.
    pub width: u32,
}

impl fmt::Display for CutConstant {
    fn fmt(&self, f: &mut fmt::Formatter<'_>) -> fmt::Result {
        let CutConstant {
            place,
            word,
            counts_as,
            width,
        } = self;
        write!(
            f,
            "c{word} at token {place} counts as c{counts_as} at width {width}"
        )
    }
}

/// A lent formula: opcodes and operands, as many of the one as of the other. Whether it is a formula the calls test (refusal 6).
#[derive(Clone, Copy, Debug, PartialEq, Eq)]
pub struct Formula<'a> {
    ops: &'a [u8],
    operands: &'a [u64],
}

impl<'a> Formula<'a> {
    /// The tokens of two slices; none where the lengths differ.
    pub fn new(ops: &'a [u8], operands: &'a [u64]) -> Option<Self> {
        (ops.len() == operands.len()).then_some(Formula { ops, operands })
    }

    /// How many tokens.
    pub fn len(self) -> usize {
        self.ops.len()
    }

    /// Whether there is no token.
    pub fn is_empty(self) -> bool {
        self.ops.is_empty()
    }

    /// The opcodes.
    pub fn ops(self) -> &'a [u8] {
        self.ops
    }

    /// The operands.
    pub fn operands(self) -> &'a [u64] {
        self.operands
    }

    /// The tokens from left to right.
    pub fn tokens(self) -> impl Iterator<Item = Token> + 'a {
        let parts = self.ops.iter().zip(self.operands);
        parts.map(|(&opcode, &operand)| Token::of(opcode, operand))
    }

    /// The tokens as the lent calls take them.
    pub fn lend(self) -> Tokens<'a> {
        Tokens {
            count: self.len(),
            ops: self.ops,
            operands: self.operands,
        }
    }

    /// The constants that the width cuts off, from left to right; none from 64 bits up.
    pub fn cut_constants(self, width: u32) -> impl Iterator<Item = CutConstant> + 'a {
        let places = (1..).zip(self.tokens());
        places.filter_map(move |(place, token)| cut_constant(place, token, width))
    }
}

/// The token, if it is a constant that the width cuts off.
fn cut_constant(place: usize, token: Token, width: u32) -> Option<CutConstant> {
    let Token::Constant(word) = token else {
        return None;
    };
    let counts_as = reduce(word, width);
    (counts_as != word).then_some(CutConstant {
        place,
        word,
        counts_as,
        width,
    })
}

/// The tokens with blanks between, as in the listing.
impl fmt::Display for Formula<'_> {
    fn fmt(&self, f: &mut fmt::Formatter<'_>) -> fmt::Result {
        for (place, token) in self.tokens().enumerate() {
            if place > 0 {
                f.write_str(" ")?;
            }
            write!(f, "{token}")?;
        }
        Ok(())
    }
}

/// An owned formula, gathered from tokens or read from the listing's text. [`Points::read`](crate::Points::read) also tests what it
/// reads.
#[derive(Clone, Debug, Default, PartialEq, Eq)]
pub struct FormulaBuf {
    ops: Vec<u8>,
    operands: Vec<u64>,
}

impl FormulaBuf {
    /// The formula, lent.
    pub fn as_formula(&self) -> Formula<'_> {
        Formula {
            ops: &self.ops,
            operands: &self.operands,
        }
    }
}

/// Two formulas under a token.
pub(crate) fn operation(left: Formula<'_>, right: Formula<'_>, token: Token) -> FormulaBuf {
    left.tokens().chain(right.tokens()).chain([token]).collect()
}

impl FromIterator<Token> for FormulaBuf {
    fn from_iter<I: IntoIterator<Item = Token>>(tokens: I) -> Self {
        let (ops, operands) = tokens.into_iter().map(Token::parts).unzip();
        FormulaBuf { ops, operands }
    }
}

impl FromStr for FormulaBuf {
    type Err = ParseFormulaError;

    fn from_str(text: &str) -> Result<Self, ParseFormulaError> {
        let words = (1..).zip(text.split_whitespace());
        let token = |(place, word): (usize, &str)| {
            word.parse::<Token>()
                .map_err(|error| ParseFormulaError::new(place, error))
        };
        words.map(token).collect()
    }
}

impl fmt::Display for FormulaBuf {
    fn fmt(&self, f: &mut fmt::Formatter<'_>) -> fmt::Result {
        self.as_formula().fmt(f)
    }
}

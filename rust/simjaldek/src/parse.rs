//! Words of a text that are no tokens: which, where, and what is wanted instead.

use std::error::Error;
use std::fmt;

/// The signs of the tokens without an operand.
const SIGNS: &str = "+*&|^!-";

/// A word that is no token of the listing.
#[derive(Clone, Debug, PartialEq, Eq)]
pub struct ParseTokenError {
    word: String,
}

impl ParseTokenError {
    /// This word is no token.
    pub(crate) fn new(word: &str) -> Self {
        ParseTokenError {
            word: word.to_owned(),
        }
    }

    /// The word.
    pub fn word(&self) -> &str {
        &self.word
    }

    /// What is wanted in its place.
    fn wanted(&self) -> &'static str {
        let number_after = |start| {
            let digits = self.word.strip_prefix(start).unwrap_or("");
            !digits.is_empty() && is_decimal(digits)
        };
        if number_after("c") {
            return "a constant is below 2^64";
        }
        if number_after("v") {
            return "variables are v0 to v5 at most";
        }
        if number_after("c-") || number_after("c+") {
            return "a constant has no sign: `c1 -` is -1";
        }
        if self.word.contains(['(', ')']) || self.word.contains(|c| SIGNS.contains(c)) {
            return "postfix is wanted, with blanks between the tokens: `v0 v1 +` for v0 + v1";
        }
        "tokens are c and a decimal number, v and a variable's number, and + * & | ^ ! -: `v0 c3 *`"
    }
}

/// Whether there are decimal digits only.
pub(crate) fn is_decimal(digits: &str) -> bool {
    digits.bytes().all(|byte| byte.is_ascii_digit())
}

impl fmt::Display for ParseTokenError {
    fn fmt(&self, f: &mut fmt::Formatter<'_>) -> fmt::Result {
        write!(f, "{}: {}", self.word, self.wanted())
    }
}

impl Error for ParseTokenError {}

/// A word of a formula's text that is no token.
#[derive(Clone, Debug, PartialEq, Eq)]
pub struct ParseFormulaError {
    place: usize,
    error: ParseTokenError,
}

impl ParseFormulaError {
    /// The word at this place is no token.
    pub(crate) fn new(place: usize, error: ParseTokenError) -> Self {
        ParseFormulaError { place, error }
    }

    /// The word.
    pub fn word(&self) -> &str {
        self.error.word()
    }

    /// Its place among the words, from 1.
    pub fn place(&self) -> usize {
        self.place
    }
}

impl fmt::Display for ParseFormulaError {
    fn fmt(&self, f: &mut fmt::Formatter<'_>) -> fmt::Result {
        let (word, wanted) = (self.word(), self.error.wanted());
        write!(f, "{word} at token {}: {wanted}", self.place)
    }
}

impl Error for ParseFormulaError {}

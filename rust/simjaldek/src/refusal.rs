//! The numbers with which a call refuses unfit input.

use std::error::Error;
use std::fmt;

/// Why a call was refused: the least number of the specification's table that applies. A refused call changes no buffer.
#[derive(Clone, Copy, Debug, PartialEq, Eq, Hash)]
#[non_exhaustive]
pub enum Refusal {
    /// 1: the variable count is not 1 to 6.
    VariableCount,
    /// 2: the width is not 1 to 64.
    Width,
    /// 3: the limit is above 262,144.
    Limit,
    /// 4: a lent array is shorter than stated, or than its count needs.
    ShortArray,
    /// 5: a point, target or row word, p or t is not below 2^w.
    Word,
    /// 6: not a formula of 1 to 64 tokens over the variables (an atom of a product search: 1 to 6 tokens, six variables), not a gate's
    /// number, or not a token limit of 1 to 64.
    Formula,
    /// 7: more atoms or pairs are claimed than there can be, an atom slot is not below its count, or a pair's gate is above 4.
    Count,
    /// 8: the order list is not the one of the pairs' rows.
    OrderList,
    /// 9: a program's text is not the numbers that it asks for. No call of this crate answers it.
    Text,
    /// 10: a rule's M is not 1 to W, or its W is not 1 to 64.
    Window,
    /// 11: no rule of a closing log, more than eight, a rank that is not 1 to 8, or two equal ranks.
    Ranks,
    /// A number that the table doesn't have.
    Other(u32),
}

impl Refusal {
    /// The refusal with this number.
    pub fn from_number(number: u32) -> Self {
        match number {
            1 => Refusal::VariableCount,
            2 => Refusal::Width,
            3 => Refusal::Limit,
            4 => Refusal::ShortArray,
            5 => Refusal::Word,
            6 => Refusal::Formula,
            7 => Refusal::Count,
            8 => Refusal::OrderList,
            9 => Refusal::Text,
            10 => Refusal::Window,
            11 => Refusal::Ranks,
            other => Refusal::Other(other),
        }
    }

    /// The table's number.
    pub fn number(self) -> u32 {
        match self {
            Refusal::VariableCount => 1,
            Refusal::Width => 2,
            Refusal::Limit => 3,
            Refusal::ShortArray => 4,
            Refusal::Word => 5,
            Refusal::Formula => 6,
            Refusal::Count => 7,
            Refusal::OrderList => 8,
            Refusal::Text => 9,
            Refusal::Window => 10,
            Refusal::Ranks => 11,
            Refusal::Other(number) => number,
        }
    }
}

impl fmt::Display for Refusal {
    fn fmt(&self, f: &mut fmt::Formatter<'_>) -> fmt::Result {
        let condition = match self {
            Refusal::VariableCount => "variable count not 1 to 6",
            Refusal::Width => "width not 1 to 64",
            Refusal::Limit => "limit above 262,144",
            Refusal::ShortArray => {
                "a lent array shorter than stated, or than its count needs; fewer words than variables"
            }
            Refusal::Word => "a point, target or row word, p or t not below 2^w",
            Refusal::Formula => {
                "formula of 0 or over 64 tokens (of an atom over 6), unknown opcode, nonzero unused operand, \
                 variable not below the count, operand missing, or not exactly one value left; \
                 or not a gate's number, 0 to 4; or not a token limit, 1 to 64"
            }
            Refusal::Count => {
                "more than 479 atoms or 262,144 pairs claimed, \
                 or an atom slot handed in that is not below its count, or a pair's gate above 4"
            }
            Refusal::OrderList => "the order list isn't the one of the rows",
            Refusal::Text => "the text isn't the unsigned decimals that are asked for",
            Refusal::Window => "a rule's M not 1 to W, or its W not 1 to 64",
            Refusal::Ranks => "no rule, more than 8, a rank not 1 to 8, or two equal ranks",
            Refusal::Other(_) => "unknown",
        };
        write!(f, "refused {}: {condition}", self.number())
    }
}

impl Error for Refusal {}

//! The numbers of the specification's table; the least that applies counts, but 9 comes before all.

pub const NONE: u64 = 0;
pub const REFUSED_VARS: u64 = 1;
pub const REFUSED_WIDTH: u64 = 2;
pub const REFUSED_LIMIT: u64 = 3;
pub const REFUSED_LENGTH: u64 = 4;
pub const REFUSED_WORD: u64 = 5;
pub const REFUSED_FORMULA: u64 = 6;
pub const REFUSED_COUNT: u64 = 7;
pub const REFUSED_ORDER: u64 = 8;
pub const REFUSED_TEXT: u64 = 9;
pub const REFUSED_WINDOW: u64 = 10;
pub const REFUSED_RANKS: u64 = 11;

/// The less of two refusals, where 0 is none.
pub fn least(one: u64, other: u64) -> u64 {
    match (one, other) {
        (NONE, refusal) | (refusal, NONE) => refusal,
        _ => one.min(other),
    }
}

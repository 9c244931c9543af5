//! The texts of both programs: numbers that are read, lines that are written.

use crate::access::Formula;

use super::formulas::{ADD, AND, CONSTANT, MUL, NEG, NOT, OR, VARIABLE, XOR};

/// Bytes that part two numbers.
const PARTING: [u8; 3] = [32, 10, 13];
/// Digits of the largest number.
const DIGITS_MAX: usize = 20;

/// The numbers of a text that has nothing else.
pub fn numbers(text: &[u8]) -> Option<Vec<u64>> {
    let words = text.split(|byte| PARTING.contains(byte));
    words.filter(|word| !word.is_empty()).map(number).collect()
}

/// An unsigned decimal below 2^64, with or without leading zeros.
fn number(word: &[u8]) -> Option<u64> {
    if !word.iter().all(|byte| (48..=57).contains(byte)) {
        return None;
    }
    let zeros = word.iter().take_while(|&&byte| byte == 48).count();
    let digits = &word[zeros..];
    if digits.len() > DIGITS_MAX {
        return None;
    }
    let value = digits
        .iter()
        .fold(0, |value, &byte| value * 10 + u128::from(byte - 48));
    u64::try_from(value).ok()
}

/// A refusal as both programs tell it.
pub fn refusal_line(refusal: u64) -> String {
    format!("refused {refusal}\n")
}

/// A formula's line in postfix.
pub fn formula_line(formula: &Formula) -> String {
    let tokens: Vec<String> = formula.tokens().map(token).collect();
    parted(&tokens) + "\n"
}

fn token((op, operand): (u8, u64)) -> String {
    match op {
        CONSTANT => format!("c{operand}"),
        VARIABLE => format!("v{operand}"),
        ADD => "+".into(),
        MUL => "*".into(),
        AND => "&".into(),
        OR => "|".into(),
        XOR => "^".into(),
        NOT => "!".into(),
        NEG => "-".into(),
        _ => panic!("opcode {op}"),
    }
}

/// By one blank each.
pub fn parted<T: ToString>(items: &[T]) -> String {
    let items: Vec<String> = items.iter().map(T::to_string).collect();
    items.join(" ")
}

#[cfg(test)]
mod tests {
    use super::{number, numbers};

    #[test]
    fn the_largest_number() {
        assert_eq!(number(b"18446744073709551615"), Some(u64::MAX));
        assert_eq!(number(b"00018446744073709551615"), Some(u64::MAX));
        assert_eq!(number(b"18446744073709551616"), None);
        assert_eq!(number(b"99999999999999999999"), None);
    }

    #[test]
    fn digits_only() {
        assert_eq!(number(b"000"), Some(0));
        for word in ["-0", "+1", "1.0", "0x1", "1/", ":"] {
            assert_eq!(number(word.as_bytes()), None);
        }
    }

    #[test]
    fn parting_bytes() {
        assert_eq!(numbers(b"\r\n 1  2\r3\n"), Some(vec![1, 2, 3]));
        assert_eq!(numbers(b" \n"), Some(vec![]));
        assert_eq!(numbers(b"1\t2"), None);
        assert_eq!(numbers(b"1 2x"), None);
    }
}

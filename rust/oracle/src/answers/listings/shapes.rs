//! Texts of odd shape that are good all the same.

use super::texts::{numbers_of, ones, p2, plain, target, POINTS, WIDTH};
use super::{Listings, LISTING};
use crate::inputs::Inputs;
use crate::made::banks::{BankInput, Points, Target};
use crate::spec::listing as spec;
use crate::spec::refusals::{NONE, REFUSED_VARS};

/// More than two reads of 65,536 bytes.
const MANY_BLANKS: usize = 143_000;

pub fn cases(file: &mut Listings) {
    largest_words(file);
    parting_bytes(file);
    first_and_last(file);
    leading_zeros(file);
    many_blanks(file);
    many_numbers(file);
}

/// The text must have these numbers.
fn case(file: &mut Listings, text: &[u8], numbers: &[u64]) {
    assert_eq!(spec::numbers(text).as_deref(), Some(numbers));
    file.case(text, NONE);
}

/// The numbers, each with something before it, parted by the given bytes.
fn joined(numbers: &[u64], before: &str, parting: &str) -> String {
    let words: Vec<String> = numbers
        .iter()
        .map(|number| format!("{before}{number}"))
        .collect();
    words.join(parting)
}

/// Some numbers with two variables.
fn two_variables() -> Vec<u64> {
    let inputs = &mut Inputs::of_kind(LISTING + 1000);
    let bank = BankInput::new(inputs, 2, 8, (Points::Random, Target::Few));
    numbers_of(&bank, 12)
}

/// 2^64 - 1 at width 64: as a point's word, as a target word, as all of them.
fn largest_words(file: &mut Listings) {
    let numbers = ones(1);
    for place in [POINTS, target(&numbers) + 15] {
        let mut numbers = numbers.clone();
        numbers[WIDTH] = 64;
        numbers[place] = u64::MAX;
        case(file, &plain(&numbers), &numbers);
    }
    let mut numbers = ones(2);
    numbers[WIDTH] = 64;
    numbers[POINTS..].fill(u64::MAX);
    case(file, &plain(&numbers), &numbers);
}

/// One number on each line, CR LF, CR alone, several blanks, all of them mixed.
fn parting_bytes(file: &mut Listings) {
    let numbers = two_variables();
    for parting in ["\n", "\r\n", "\r", " ", "   ", "\n\n", " \r\n\r \n"] {
        let text = joined(&numbers, "", parting) + parting;
        case(file, text.as_bytes(), &numbers);
    }
    let lines = String::from_utf8(plain(&numbers)).expect("digits and blanks");
    let text = lines.replace('\n', "\r\n");
    case(file, text.as_bytes(), &numbers);
}

/// No line end at the end; parting bytes first, last, and both.
fn first_and_last(file: &mut Listings) {
    let numbers = p2(7);
    let text = joined(&numbers, "", " ");
    for (first, last) in [
        ("", ""),
        (" ", ""),
        ("\n", ""),
        ("\r", "\r"),
        ("", "   \n"),
        ("\n\n  \r\n", " \r\n\n\r  "),
    ] {
        let text = format!("{first}{text}{last}");
        case(file, text.as_bytes(), &numbers);
    }
}

/// By the hundred, before zeros and before numbers of twenty digits too.
fn leading_zeros(file: &mut Listings) {
    let mut numbers = p2(7);
    let hundred = "0".repeat(100);
    for zeros in ["0", &hundred] {
        let text = joined(&numbers, zeros, " ") + "\n";
        case(file, text.as_bytes(), &numbers);
    }
    numbers[WIDTH] = 64;
    numbers[POINTS] = u64::MAX;
    numbers[POINTS + 1] = 10_000_000_000_000_000_000;
    let text = joined(&numbers, &hundred, "\n");
    case(file, text.as_bytes(), &numbers);
}

/// A text that comes in several reads, most of them without a number.
fn many_blanks(file: &mut Listings) {
    let numbers = p2(36);
    let mut text = plain(&numbers);
    let line_end = text.iter().position(|&byte| byte == b'\n');
    let line_end = line_end.expect("a first line");
    text.splice(line_end..line_end, [b' '; MANY_BLANKS]);
    case(file, &text, &numbers);
}

/// More numbers than six variables have, though as many as asked for.
fn many_numbers(file: &mut Listings) {
    file.case(&plain(&ones(300)), REFUSED_VARS);
}

//! Texts that the table refuses with 9, whatever else is wrong with them.

use super::texts::{ones, p2, plain, LIMIT, NUM_VARS, POINTS, WIDTH};
use super::Listings;
use crate::answers::malformed::{BAD_BYTES, BAD_WORDS};
use crate::spec::refusals::{NONE, REFUSED_TEXT};

/// Where P2's text has a blank between two words of points.
const BLANK: usize = 8;

pub fn cases(file: &mut Listings) {
    words(file);
    bytes(file);
    without_numbers(file);
    counts(file);
    also_refusable(file);
}

fn malformed(file: &mut Listings, text: &[u8]) {
    file.case(text, REFUSED_TEXT);
}

/// Numbers of P2, one of them replaced.
fn p2_with(place: usize, word: &[u8]) -> Vec<u8> {
    with_word(&p2(10), place, word)
}

fn with_word(numbers: &[u64], place: usize, word: &[u8]) -> Vec<u8> {
    let mut words: Vec<Vec<u8>> = numbers
        .iter()
        .map(|number| number.to_string().into_bytes())
        .collect();
    words[place] = word.to_vec();
    words.join(&b' ')
}

/// A bad word in place of a number, at one place each.
fn words(file: &mut Listings) {
    for (turn, word) in BAD_WORDS.into_iter().enumerate() {
        let place = [POINTS + 5, NUM_VARS, 34, LIMIT, WIDTH][turn % 5];
        malformed(file, &p2_with(place, word));
    }
    let long = "9".repeat(400);
    malformed(file, &p2_with(LIMIT, long.as_bytes()));
    // the place of a good word
    file.case(&p2_with(34, b"1"), NONE);
}

/// A bad byte in place of a parting byte, first, last, and as a word.
fn bytes(file: &mut Listings) {
    let good = plain(&p2(10));
    assert_eq!(good[BLANK], 32);
    for (turn, byte) in BAD_BYTES.into_iter().enumerate() {
        let mut text = good.clone();
        match turn % 4 {
            0 => *text.last_mut().expect("a line end") = byte,
            1 => text.insert(0, byte),
            2 => text[BLANK] = byte,
            _ => text.push(byte),
        }
        malformed(file, &text);
    }
    for byte in [9, 0, 255] {
        let mut text = good.clone();
        text[BLANK] = byte;
        malformed(file, &text);
        text.splice(BLANK..=BLANK, [32, byte, 32]);
        malformed(file, &text);
    }
}

fn without_numbers(file: &mut Listings) {
    let texts: [&[u8]; 6] = [b"", b" ", b"\n", b"\r\n", &[32; 300], b" \n\r\n  \r "];
    for text in texts {
        malformed(file, text);
    }
}

/// One number too many or too few, and first numbers that ask for more than there are, or that wrap.
fn counts(file: &mut Listings) {
    for num_vars in [0, 1, 6, 7] {
        let mut numbers = ones(num_vars);
        numbers.push(1);
        malformed(file, &plain(&numbers));
        numbers.truncate(numbers.len() - 2);
        malformed(file, &plain(&numbers));
    }
    for (first, count) in [
        (2, 35),
        (0, 35),
        (1, 19),
        (1, 51),
        (1 << 60, 19),
        ((1 << 60) + 1, 35),
        (1 << 63, 19),
        (u64::MAX, 19),
        (1 << 28, 19),
    ] {
        let mut numbers = ones(1);
        numbers.resize(count, 1);
        numbers[NUM_VARS] = first;
        malformed(file, &plain(&numbers));
    }
    // 19 + 16 × (2^64 - 1) is 3 modulo 2^64
    malformed(file, b"18446744073709551615 2 3\n");
    for text in ["0", "1", "1 2 3", "1 2 3\n"] {
        malformed(file, text.as_bytes());
    }
}

/// What would be refused 1, 2, 3 or 5 if the text were well formed.
fn also_refusable(file: &mut Listings) {
    let mut too_many = ones(7);
    too_many.push(1);
    malformed(file, &plain(&too_many));
    for (place, number) in [(WIDTH, 65), (LIMIT, 501), (POINTS, 4), (34, 4)] {
        let mut numbers = p2(10);
        numbers[place] = number;
        malformed(file, &with_word(&numbers, 20, b"-1"));
        numbers.pop();
        malformed(file, &plain(&numbers));
    }
    malformed(file, &with_word(&ones(0), WIDTH, b"18446744073709551616"));
    malformed(file, &with_word(&ones(7), 130, b"1,"));
}

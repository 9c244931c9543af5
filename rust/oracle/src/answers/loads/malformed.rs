//! Texts of kind 25 that the table refuses with 9, whatever else is wrong with them; and texts of odd shape that are good.

use super::printed::{case, plain, COUNT, GOOD, LIMIT, SEED, VARS, WIDTH};
use crate::answers::data_file::DataFile;
use crate::answers::malformed::{BAD_BYTES, BAD_WORDS};
use crate::spec::refusals::{NONE, REFUSED_TEXT};

/// More than two reads of 65,536 bytes.
const MANY_BLANKS: usize = 140_000;

pub fn texts(file: &mut DataFile) {
    words(file);
    bytes(file);
    counts(file);
    also_refusable(file);
    shapes(file);
}

fn malformed(file: &mut DataFile, text: &[u8]) {
    case(file, text, REFUSED_TEXT);
}

/// The good numbers, one of them replaced.
fn with_word(place: usize, word: &[u8]) -> Vec<u8> {
    let mut words = GOOD.map(|number| number.to_string().into_bytes());
    words[place] = word.to_vec();
    words.join(&b' ')
}

/// A bad word in place of a number, at one place each.
fn words(file: &mut DataFile) {
    for (turn, word) in BAD_WORDS.into_iter().enumerate() {
        let place = [COUNT, SEED, VARS, LIMIT, WIDTH][turn % 5];
        malformed(file, &with_word(place, word));
    }
    malformed(file, &with_word(COUNT, "9".repeat(400).as_bytes()));
    case(file, &with_word(COUNT, b"1"), NONE);
    case(file, &with_word(SEED, b"18446744073709551615"), NONE);
}

/// A bad byte in place of a parting byte, first, last, and as a word.
fn bytes(file: &mut DataFile) {
    let good = plain(&GOOD);
    let blank = good.iter().position(|&byte| byte == 32);
    let blank = blank.expect("a blank");
    for (turn, byte) in BAD_BYTES.into_iter().enumerate() {
        let mut text = good.clone();
        match turn % 4 {
            0 => *text.last_mut().expect("a line end") = byte,
            1 => text.insert(0, byte),
            2 => text[blank] = byte,
            _ => text.push(byte),
        }
        malformed(file, &text);
    }
    let mut text = good;
    text.splice(blank..=blank, [32, 9, 32]);
    malformed(file, &text);
}

/// None, fewer than five, more than five; as many as the listing has.
fn counts(file: &mut DataFile) {
    for text in [
        "",
        " ",
        "\n",
        "\r\n",
        "1 2 32 7",
        "1 2 32 7\n",
        "1 2 32 7 20 20",
        "1 2 32 7 20\n0",
    ] {
        malformed(file, text.as_bytes());
    }
    for count in [1, 6, 19, 35, 115, 116, 300] {
        malformed(file, &plain(&vec![1; count]));
    }
}

/// What would be refused 1, 2 or 6 if the text were well formed.
fn also_refusable(file: &mut DataFile) {
    for (place, number) in [(VARS, 0), (WIDTH, 65), (LIMIT, 65)] {
        let mut numbers = GOOD.to_vec();
        numbers[place] = number;
        malformed(file, &[plain(&numbers), b"-1".to_vec()].concat());
        malformed(file, &plain(&numbers[..COUNT]));
        numbers.push(1);
        malformed(file, &plain(&numbers));
    }
}

/// The same numbers with other blanks and line ends, and with leading zeros.
fn shapes(file: &mut DataFile) {
    let hundred = "0".repeat(100);
    let many = " ".repeat(MANY_BLANKS);
    for text in [
        "1 2 32 7 20",
        "1\n2\n32\n7\n20\n",
        "1\r\n2 32 7\r\n20\r\n",
        "\r\r1\r2\r32\r7\r20\r",
        "   1  2   32    7     20      ",
        "\n \r\n1 2\n\n32 7 20",
        "01 002 00032 0007 00020\n",
        &format!("{hundred}1 {hundred}2 {hundred}32 {hundred}7 {hundred}20"),
        &format!("1 2 32{many}7 20\n"),
    ] {
        case(file, text.as_bytes(), NONE);
    }
}

//! Texts of kind 25 in plain shape: loads, and what the table refuses with 1, 2 or 6.

use super::PRINTED;
use crate::answers::data_file::DataFile;
use crate::spec::load as spec;
use crate::spec::refusals::{least, NONE, REFUSED_FORMULA, REFUSED_VARS, REFUSED_WIDTH};

/// Seed, variable count, width, limit, how many formulas.
pub type Numbers = [u64; 5];
pub const SEED: usize = 0;
pub const VARS: usize = 1;
pub const WIDTH: usize = 2;
pub const LIMIT: usize = 3;
pub const COUNT: usize = 4;

/// What the other texts are made of.
pub const GOOD: Numbers = [1, 2, 32, 7, 20];

const BAD_VARS: [u64; 6] = [0, 7, 8, 256 + 2, (1 << 32) + 1, u64::MAX];
const BAD_WIDTHS: [u64; 6] = [0, 65, 128, 256 + 8, (1 << 32) + 32, u64::MAX];
const BAD_LIMITS: [u64; 6] = [0, 65, 66, 256 + 7, (1 << 32) + 7, u64::MAX];

/// Something wrong, and what it alone is refused with.
const FAULTS: [(usize, u64, u64); 3] = [
    (VARS, 7, REFUSED_VARS),
    (WIDTH, 65, REFUSED_WIDTH),
    (LIMIT, 65, REFUSED_FORMULA),
];

pub fn texts(file: &mut DataFile) {
    loads(file);
    refused(file);
    several_conditions(file);
}

/// One text. Its refusal is stated by hand, and the table must say the same.
pub fn case(file: &mut DataFile, text: &[u8], refusal: u64) {
    assert_eq!(spec::refusal(text), refusal);
    let printed: String = spec::printed(text).collect();
    file.text(PRINTED, text, &printed);
}

/// The numbers on one line.
pub fn plain(numbers: &[u64]) -> Vec<u8> {
    let words: Vec<String> = numbers.iter().map(u64::to_string).collect();
    (words.join(" ") + "\n").into_bytes()
}

fn loads(file: &mut DataFile) {
    for count in [0, 1, 2, 20, 300] {
        case(file, &plain(&[1, 2, 32, 7, count]), NONE);
    }
    for num_vars in 1..=6 {
        for (turn, width) in (num_vars..).zip([1, 8, 63, 64]) {
            let limit = [1, 2, 3, 7, 64][turn as usize % 5];
            let seed = [0, u64::MAX, 1 << 63, turn][turn as usize % 4];
            case(file, &plain(&[seed, num_vars, width, limit, 9]), NONE);
        }
    }
    // long lines, nearly as many as a case may have
    case(file, &plain(&[3, 6, 64, 64, 250]), NONE);
}

/// Also where no formula is asked for.
fn refused(file: &mut DataFile) {
    let all = [
        (VARS, BAD_VARS, REFUSED_VARS),
        (WIDTH, BAD_WIDTHS, REFUSED_WIDTH),
        (LIMIT, BAD_LIMITS, REFUSED_FORMULA),
    ];
    for (place, bad, refusal) in all {
        for (turn, number) in bad.into_iter().enumerate() {
            let mut numbers = GOOD;
            numbers[place] = number;
            numbers[COUNT] = [20, 0, u64::MAX][turn % 3];
            case(file, &plain(&numbers), refusal);
        }
    }
}

/// Each two, and all. The least number counts.
fn several_conditions(file: &mut DataFile) {
    for members in [0b011, 0b101, 0b110, 0b111] {
        for count in [0, 20] {
            let (mut numbers, mut refusal) = (GOOD, NONE);
            numbers[COUNT] = count;
            for (member, (place, number, number_refused)) in FAULTS.into_iter().enumerate() {
                if members >> member & 1 == 1 {
                    numbers[place] = number;
                    refusal = least(refusal, number_refused);
                }
            }
            case(file, &plain(&numbers), refusal);
        }
    }
}

//! Texts in plain shape that are not refused.

use super::texts::{numbers_of, p2, plain};
use super::{Listings, LISTING};
use crate::inputs::{one_variable, Inputs};
use crate::made::banks::{BankInput, Points, Target, POINT_STYLES, TARGET_STYLES};
use crate::spec::listing::LIMIT_MAX;
use crate::spec::refusals::NONE;

const WIDTHS: [u32; 8] = [1, 2, 7, 8, 31, 32, 63, 64];

pub fn cases(file: &mut Listings) {
    let inputs = &mut Inputs::of_kind(LISTING);
    sheet(file);
    every_count(file, inputs);
    largest(file, inputs);
}

fn case(file: &mut Listings, bank: &BankInput, limit: u64) {
    file.case(&plain(&numbers_of(bank, limit)), NONE);
}

/// P1, P2 with its limits, P9 and P10.
fn sheet(file: &mut Listings) {
    let ascending: Vec<u64> = (0..16).collect();
    let mut p10_target = [0; 16];
    p10_target[..7].fill(1);
    p10_target[7] = 4;
    let of_sheet = |width, words: &[u64], target| BankInput {
        num_vars: 1,
        width,
        points: one_variable(words),
        target,
    };
    case(file, &of_sheet(1, &[0, 1], [0; 16]), 10);
    for limit in [0, 35, 36, 37, LIMIT_MAX] {
        file.case(&plain(&p2(limit)), NONE);
    }
    case(file, &of_sheet(8, &ascending, [254; 16]), 20);
    case(file, &of_sheet(8, &ascending, p10_target), 20);
}

/// Each variable count at each of the widths; styles and limits in turn.
fn every_count(file: &mut Listings, inputs: &mut Inputs) {
    for num_vars in 1..=6 {
        for (place, width) in WIDTHS.into_iter().enumerate() {
            let turn = 9 * num_vars as usize + place;
            let points = POINT_STYLES[turn % POINT_STYLES.len()];
            let target = TARGET_STYLES[turn % TARGET_STYLES.len()];
            let bank = BankInput::new(inputs, num_vars, width, (points, target));
            let limit = [30, 0, LIMIT_MAX, 1, 99][turn % 5];
            case(file, &bank, limit);
        }
    }
}

/// Six variables, points and target of any words at width 64: the longest numbers and nearly as many lines as there can be.
fn largest(file: &mut Listings, inputs: &mut Inputs) {
    let styles = (Points::Random, Target::Random);
    let bank = BankInput::new(inputs, 6, 64, styles);
    case(file, &bank, LIMIT_MAX);
}

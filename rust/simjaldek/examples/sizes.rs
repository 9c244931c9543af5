//! How large banks and indexes are at the standard points, as docs/SPECIFICATION.md has it: `cargo run -p simjaldek --example sizes`.

use simjaldek::{bitmask, Bank, Index, Points, Refusal, Row, PAIRS_MAX};

const WIDTHS: [u32; 7] = [1, 2, 4, 8, 16, 32, 64];
const HEAD: &str = "\
| Variables | Width | Atoms | Pairs | Index | Atoms, seeded | Pairs, seeded | Index, seeded |
|---|---|---|---|---|---|---|---|
";

fn main() -> Result<(), Refusal> {
    print!("{}", table()?);
    Ok(())
}

/// A line for each variable count and width: with the zero target, which has no seeds, and with a target of many.
pub fn table() -> Result<String, Refusal> {
    let mut text = HEAD.to_owned();
    for num_vars in 1..=6 {
        for width in WIDTHS {
            let points = Points::standard(num_vars, width)?;
            let plain = sizes(&points, &[0; 16])?;
            let seeded = sizes(&points, &small_words(width))?;
            text += &format!("| {num_vars} | {width} | {plain} | {seeded} |\n");
        }
    }
    Ok(text)
}

/// Atoms, pairs, and whole or cut.
fn sizes(points: &Points, target: &Row) -> Result<String, Refusal> {
    let bank = Bank::build(points, target)?;
    let index = Index::build(&bank, PAIRS_MAX)?;
    let mark = if index.is_cut() { "cut" } else { "whole" };
    Ok(format!("{} | {} | {mark}", bank.len(), index.len()))
}

/// The words 3 to 9, so far as they are below 2^w: constants that no bank has of itself. They and their OR, 15, are eight seeds.
fn small_words(width: u32) -> Row {
    let below = |word: &u64| *word <= bitmask(width);
    let mut target = [0; 16];
    for (place, word) in target.iter_mut().zip((3..=9).filter(below)) {
        *place = word;
    }
    target
}

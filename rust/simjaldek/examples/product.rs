//! Looks for the cheapest product with the row of a formula: `cargo run -p simjaldek --example product -- 2 32 'v0 v0 * v0 v1 * +'`.

mod common;

use common::Printed;
use simjaldek::{Bank, Index, ProductAnswer, PAIRS_MAX};
use std::process::ExitCode;

/// What is told with every refusal.
pub const USAGE: &str = "usage: product VARIABLES WIDTH FORMULA
VARIABLES 1 to 6, WIDTH 1 to 64, FORMULA one argument in postfix: product 2 32 'v0 v0 * v0 v1 * +'";

/// What a product is among those that fit.
const AMONG: &str = "the cheapest product of two atoms, or of an atom and a listed pair, with these values; a shorter formula may exist";

fn main() -> ExitCode {
    common::print(run, USAGE)
}

/// What the program prints: the formula, the sizes of bank and index, and the product or nothing.
pub fn run(arguments: &[String]) -> Printed {
    let (points, read) = common::read(arguments)?;
    let formula = read.formula.as_formula();
    let bank = Bank::build_for(&points, formula)?;
    let index = Index::build(&bank, PAIRS_MAX)?;
    let head = common::head(&read, &index)?;
    let answer = index.product_for(formula)?;
    let told = match answer.postfix_and_cost() {
        Some(product) => common::found(&points, &read, "product", product, AMONG)?,
        None => nothing(answer).to_owned(),
    };
    Ok(head + &told)
}

/// How certain it is that there is no product.
fn nothing(answer: ProductAnswer<'_>) -> &'static str {
    match answer {
        ProductAnswer::Nothing { certain: true } => {
            "nothing, for certain: no a × b and no a × (b g c) of the bank's atoms has the formula's values at the sixteen points. Other forms were not tried.\n"
        }
        _ => {
            "nothing found, and not certain: the index is cut, so not every a × (b g c) of the bank's atoms was tried. No a × b has the formula's values at the sixteen points.\n"
        }
    }
}

//! Looks for an xor or a sum with the row of a formula, here of v0² + v0·v1 + v0·v1 + v1² + (v0 ^ v1):
//! `cargo run -p simjaldek --example residual -- 2 32 'v0 v0 * v0 v1 * + v0 v1 * + v1 v1 * + v0 v1 ^ +'`.

mod common;

use common::Printed;
use simjaldek::{Bank, CompletionAnswer, Index, PAIRS_MAX};
use std::process::ExitCode;

/// What is told with every refusal.
pub const USAGE: &str = "usage: residual VARIABLES WIDTH FORMULA
VARIABLES 1 to 6, WIDTH 1 to 64, FORMULA one argument in postfix: residual 2 32 'v0 v0 * v0 v1 ^ +'";

/// What a completion is among those that hit.
const AMONG: &str = "the first completion found, not the cheapest: a shorter one may exist";

fn main() -> ExitCode {
    common::print(run, USAGE)
}

/// What the program prints: the formula, the sizes of bank and index, and the completion or nothing.
pub fn run(arguments: &[String]) -> Printed {
    let (points, read) = common::read(arguments)?;
    let formula = read.formula.as_formula();
    let bank = Bank::build_for(&points, formula)?;
    let index = Index::build(&bank, PAIRS_MAX)?;
    let head = common::head(&read, &index)?;
    let answer = index.residual_for(formula)?;
    let told = match answer.postfix_and_cost() {
        Some(completion) => common::found(&points, &read, "completion", completion, AMONG)?,
        None => nothing(answer).to_owned(),
    };
    Ok(head + &told)
}

/// How certain it is that there is no completion.
fn nothing(answer: CompletionAnswer<'_>) -> &'static str {
    match answer {
        CompletionAnswer::Nothing { certain: true } => {
            "nothing, for certain: no a ^ b, a + b, a ^ (b g c) and a + (b g c) of the bank's atoms has the formula's values at the sixteen points. Other forms were not tried.\n"
        }
        _ => {
            "nothing found, and not certain: the index is cut, so not every a ^ (b g c) and a + (b g c) of the bank's atoms was tried. No a ^ b and no a + b has the formula's values at the sixteen points.\n"
        }
    }
}

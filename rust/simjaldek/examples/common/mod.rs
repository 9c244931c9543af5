//! What the examples of the searches share: their arguments, and what they tell of a formula and of what is found for it.

use simjaldek::{Cost, FormulaBuf, Index, Points, Reading};
use std::env;
use std::error::Error;
use std::fmt::Write;
use std::process::ExitCode;

/// What an answer may be believed to be.
const BELIEVE: &str = "Both have the same values at the sixteen points. Elsewhere is unknown: compare them there before one takes the other's place.";

/// What an example prints, or why it doesn't.
pub type Printed = Result<String, Box<dyn Error>>;

/// Prints what `run` makes of the program's arguments; with a refusal the usage.
pub fn print(run: fn(&[String]) -> Printed, usage: &str) -> ExitCode {
    let arguments: Vec<String> = env::args().skip(1).collect();
    match run(&arguments) {
        Ok(text) => {
            print!("{text}");
            ExitCode::SUCCESS
        }
        Err(error) => {
            eprintln!("{error}\n{usage}");
            ExitCode::FAILURE
        }
    }
}

/// The arguments: variable count and width as standard points, and the formula.
pub fn read(arguments: &[String]) -> Result<(Points, Reading), Box<dyn Error>> {
    let [variables, width, text] = arguments else {
        return Err(format!("three arguments are wanted, not {}", arguments.len()).into());
    };
    let points = Points::standard(number("VARIABLES", variables)?, number("WIDTH", width)?)?;
    let read = points.read(text)?;
    Ok((points, read))
}

/// An argument as a number.
fn number(name: &str, text: &str) -> Result<u32, String> {
    text.parse()
        .map_err(|_| format!("{name} is no number: {text}"))
}

/// The formula, the constants that are cut off, and the sizes of bank and index.
pub fn head(read: &Reading, index: &Index<'_>) -> Printed {
    let formula = read.formula.as_formula();
    let bank = index.bank();
    let cost = bank.points().compute_cost(formula)?;
    let mut text = format!("formula {formula}\ncost {cost} (size, products, depth)\n");
    for cut in &read.cut {
        writeln!(text, "note: {cut}")?;
    }
    let mark = if index.is_cut() { "cut" } else { "whole" };
    let (atoms, pairs) = (bank.len(), index.len());
    writeln!(text, "bank {atoms} atoms, index {pairs} pairs, {mark}")?;
    Ok(text)
}

/// What was found for a formula, a `kind` of thing, its cost, and whether that is less; where it isn't, what it is among those that fit.
pub fn found(
    points: &Points,
    read: &Reading,
    kind: &str,
    (found, cost): (FormulaBuf, Cost),
    among: &str,
) -> Printed {
    let before = points.compute_cost(read.formula.as_formula())?;
    let better = if cost.is_better(before) {
        "better than the formula's".to_owned()
    } else {
        format!("not better than the formula's (it is {among})")
    };
    Ok(format!(
        "{kind} {found}\ncost {cost}, {better}\n{BELIEVE}\n"
    ))
}

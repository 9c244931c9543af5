//! Replays a file of records through a closing log, and tells how each sounding was closed, by burst or by signal loss:
//! `cargo run -p simjaldek --example log`, or with the path of another file than examples/descent.txt.

use simjaldek::{Close, FormulaBuf, Log, RankedRule, Window};
use std::env;
use std::error::Error;
use std::fmt::Write;
use std::fs;
use std::process::ExitCode;

/// What is told with every error.
pub const USAGE: &str = "usage: log [FILE]
a line of FILE is `open`, or a record: the height, the height before, how many of 15 frames were lost; # begins a comment";

/// The file beside this one.
pub const DESCENT: &str = include_str!("descent.txt");

/// The words of a record: v0 the height, v1 the height before, v2 the frames lost, 0 to 15.
const NUM_VARS: u32 = 3;
const WIDTH: u32 = 16;

/// The rules by their ranks, the first of rank 1: name, formula, M and W. The height fell: the sign of v0 - v1 at width 16. The signal is
/// bad: at least four frames were lost.
const RULES: [(&str, &str, u32, u32); 2] = [
    ("burst", "v0 v1 - + c32768 &", 3, 4),
    ("signal loss", "v2 c12 &", 2, 3),
];

fn main() -> ExitCode {
    let arguments: Vec<String> = env::args().skip(1).collect();
    let ran = match &arguments[..] {
        [] => run(DESCENT),
        [path] => fs::read_to_string(path)
            .map_err(|error| format!("{path}: {error}").into())
            .and_then(|text| run(&text)),
        _ => Err("one argument is taken".into()),
    };
    match ran {
        Ok(text) => {
            print!("{text}");
            ExitCode::SUCCESS
        }
        Err(error) => {
            eprintln!("{error}\n{USAGE}");
            ExitCode::FAILURE
        }
    }
}

/// What the program prints: a line for each rule, and one for each sounding.
pub fn run(text: &str) -> Result<String, Box<dyn Error>> {
    let mut told = String::new();
    let mut log = closing_log(&mut told)?;
    let mut sounding = 0;
    for (number, line) in (1..).zip(text.lines()) {
        let line = line.split('#').next().unwrap_or_default().trim();
        match line {
            "" => {}
            "open" => {
                tell(&mut told, sounding, &log)?;
                log.open();
                sounding += 1;
            }
            words => {
                let record = record(words).map_err(|error| format!("line {number}: {error}"))?;
                log.record(&record)
                    .map_err(|refusal| format!("line {number}: {refusal}"))?;
            }
        }
    }
    tell(&mut told, sounding, &log)?;
    Ok(told)
}

/// The log of the rules, which are told.
fn closing_log(told: &mut String) -> Result<Log, Box<dyn Error>> {
    let mut formulas = Vec::new();
    for (rank, (name, formula, least, records)) in (1..).zip(RULES) {
        writeln!(
            told,
            "rank {rank}, {name}: {formula} in {least} of the last {records} records"
        )?;
        let window = Window { least, records };
        formulas.push((rank, formula.parse::<FormulaBuf>()?, window));
    }
    let rules = formulas
        .iter()
        .map(|&(rank, ref formula, window)| RankedRule {
            rank,
            formula: formula.as_formula(),
            window,
        });
    let rules: Vec<RankedRule<'_>> = rules.collect();
    Ok(Log::new(NUM_VARS, WIDTH, &rules)?)
}

/// A line for the sounding that is open, if one is.
fn tell(told: &mut String, sounding: u32, log: &Log) -> Result<(), Box<dyn Error>> {
    if !log.is_open() {
        return Ok(());
    }
    let records = log.number();
    write!(told, "sounding {sounding}: {records} records, ")?;
    match log.close() {
        Some(Close { number, rank }) => {
            let (name, ..) = RULES[rank as usize - 1];
            let later = log.later();
            writeln!(
                told,
                "closed at record {number} by {name}, later records with a firing: {later}"
            )?;
        }
        None => writeln!(told, "no close")?,
    }
    Ok(())
}

/// The words of a line.
fn record(line: &str) -> Result<Vec<u64>, String> {
    let word = |word: &str| word.parse().map_err(|_| format!("no number: {word}"));
    line.split_whitespace().map(word).collect()
}

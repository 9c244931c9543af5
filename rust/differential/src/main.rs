//! `differential SEED COUNT`: rounds until so many results are compared. `differential SEED round NUMBER`: that round again.
//! `differential SEED products COUNT`: rounds of product searches alone until there are so many; `SEED products round NUMBER`: that
//! round again. `differential SEED residuals COUNT`, `SEED residuals round NUMBER`: the same of residual searches; `SEED loads COUNT`,
//! `SEED loads round NUMBER`: of formulas drawn for the test load; `SEED rules COUNT`, `SEED rules round NUMBER`: of rules over records;
//! `SEED logs COUNT`, `SEED logs round NUMBER`: of closing logs.
//! Exit status 1 where a result differs in a way that docs/DIFFERENCES.md doesn't have.
//! `differential answers NAME`: the data file of that name of crates/compare/data, the originals' answers for the program that compares.
//! `differential program PATH`: the load program at PATH, over a pipe, beside the plain statement of what it prints, byte by byte;
//! `differential load`: that statement as a program.
//! `differential differences`: where the originals differ from the specification, for a reader; our library is asked for the same.

use std::env;
use std::io::{self, BufWriter, Read, Write};
use std::process::ExitCode;

use differential::program;
use differential::report::Report;
use oracle::spec::load;
use oracle::{answers, differences};

fn main() -> ExitCode {
    let arguments: Vec<String> = env::args().skip(1).collect();
    match arguments.iter().map(String::as_str).collect::<Vec<_>>()[..] {
        ["differences"] => {
            differences::print();
            differential::differences::confirm();
            println!("Our library has the specification's answers to all named inputs");
            ExitCode::SUCCESS
        }
        ["answers", name] => {
            answers::data_file(name).map_or_else(usage, |bytes| print_bytes(&bytes))
        }
        ["program", path, ref words @ ..] => told_program(&program::compare(path, words)),
        ["load"] => print_load().map_or(ExitCode::FAILURE, |()| ExitCode::SUCCESS),
        ref words => asked(words).map_or_else(usage, |report| told(&report)),
    }
}

fn usage() -> ExitCode {
    eprintln!(
        "usage: differential SEED [products|residuals|loads|rules|logs] COUNT | \
         SEED [products|residuals|loads|rules|logs] round NUMBER | answers {} | differences | program PATH | load",
        answers::NAMES.join("|")
    );
    ExitCode::from(2)
}

fn print_bytes(bytes: &[u8]) -> ExitCode {
    let mut output = io::stdout().lock();
    output.write_all(bytes).expect("standard output takes all");
    ExitCode::SUCCESS
}

fn told_program(tally: &program::Tally) -> ExitCode {
    print!("{tally}");
    ExitCode::from(u8::from(!tally.differences.is_empty()))
}

/// What the load program must print of standard input, up to a reader that has enough.
fn print_load() -> io::Result<()> {
    let mut text = Vec::new();
    io::stdin().lock().read_to_end(&mut text)?;
    let mut output = BufWriter::new(io::stdout().lock());
    load::printed(&text).try_for_each(|line| output.write_all(line.as_bytes()))?;
    output.flush()
}

fn told(report: &Report) -> ExitCode {
    print!("{report}");
    ExitCode::from(u8::from(report.others() > 0))
}

/// The report that the words ask for.
fn asked(words: &[&str]) -> Option<Report> {
    let number = |text: &str| text.parse::<u64>().ok();
    match *words {
        [seed, count] => Some(differential::run(number(seed)?, number(count)?)),
        [seed, "products", count] => {
            Some(differential::run_products(number(seed)?, number(count)?))
        }
        [seed, "residuals", count] => {
            Some(differential::run_residuals(number(seed)?, number(count)?))
        }
        [seed, "loads", count] => Some(differential::run_loads(number(seed)?, number(count)?)),
        [seed, "rules", count] => Some(differential::run_rules(number(seed)?, number(count)?)),
        [seed, "logs", count] => Some(differential::run_logs(number(seed)?, number(count)?)),
        [seed, "round", round] => one(differential::round, number(seed)?, number(round)?),
        [seed, "products", "round", round] => {
            one(differential::product_round, number(seed)?, number(round)?)
        }
        [seed, "residuals", "round", round] => {
            one(differential::residual_round, number(seed)?, number(round)?)
        }
        [seed, "loads", "round", round] => {
            one(differential::load_round, number(seed)?, number(round)?)
        }
        [seed, "rules", "round", round] => {
            one(differential::rule_round, number(seed)?, number(round)?)
        }
        [seed, "logs", "round", round] => {
            one(differential::log_round, number(seed)?, number(round)?)
        }
        _ => None,
    }
}

/// The report of one round.
fn one(round: fn(u64, u64, &mut Report), seed: u64, number: u64) -> Option<Report> {
    let mut report = Report::new(seed);
    round(seed, number, &mut report);
    Some(report)
}

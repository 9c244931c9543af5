//! Draws a test load as the program `load` does, from arguments in place of standard input:
//! `cargo run -p simjaldek --example load -- 1 2 32 7 10000`.

use simjaldek::{Load, Refusal};
use std::env;
use std::io::{self, BufWriter, ErrorKind, Write};
use std::process::ExitCode;

/// What is told with every refusal.
pub const USAGE: &str = "usage: load SEED VARIABLES WIDTH LIMIT N
unsigned decimals; VARIABLES 1 to 6, WIDTH 1 to 64, LIMIT of tokens 1 to 64, N formulas: load 1 2 32 7 10000";

fn main() -> ExitCode {
    let arguments: Vec<String> = env::args().skip(1).collect();
    let out = &mut BufWriter::new(io::stdout().lock());
    match run(&arguments, out) {
        Ok(None) => ExitCode::SUCCESS,
        Ok(Some(refusal)) => {
            eprintln!("{refusal}\n{USAGE}");
            ExitCode::FAILURE
        }
        // who reads the lines may have enough of them
        Err(error) if error.kind() == ErrorKind::BrokenPipe => ExitCode::SUCCESS,
        Err(error) => {
            eprintln!("{error}");
            ExitCode::FAILURE
        }
    }
}

/// Writes what the program `load` does: a line for each formula, or one that tells the refusal, which is handed back too.
pub fn run(arguments: &[String], out: &mut impl Write) -> io::Result<Option<Refusal>> {
    let refused = match read(arguments) {
        Ok((load, n)) => {
            // not `take`, whose number may be less than 64 bits wide
            for (_, formula) in (0..n).zip(load) {
                writeln!(out, "{formula}")?;
            }
            None
        }
        Err(refusal) => {
            writeln!(out, "refused {}", refusal.number())?;
            Some(refusal)
        }
    };
    out.flush()?;
    Ok(refused)
}

/// The load of five numbers, and how many formulas are wanted. Refuses 9, 1, 2, 6, as the program does.
fn read(arguments: &[String]) -> Result<(Load, u64), Refusal> {
    let numbers: Option<Vec<u64>> = arguments.iter().map(|text| decimal(text)).collect();
    let Some([seed, num_vars, width, limit, n]) = numbers.as_deref() else {
        return Err(Refusal::Text);
    };
    // a number that is too large for its parameter is refused as one just above its range is
    let num_vars = u32::try_from(*num_vars).unwrap_or(u32::MAX);
    let width = u32::try_from(*width).unwrap_or(u32::MAX);
    let limit = usize::try_from(*limit).unwrap_or(usize::MAX);
    Ok((Load::new(*seed, num_vars, width, limit)?, *n))
}

/// An unsigned decimal below 2^64.
fn decimal(text: &str) -> Option<u64> {
    // `parse` takes a sign too
    let digits = text.bytes().all(|byte| byte.is_ascii_digit());
    digits.then(|| text.parse().ok())?
}

//! The program `load` as a process beside plain Rust as a process, which is this program with a hidden word: the same five numbers on
//! standard input, the same text to nowhere.

use std::env;
use std::fmt::Write as _;
use std::io::{self, BufWriter, Read, Write};
use std::path::Path;
use std::process::{Command, Stdio};
use std::time::Duration;

use super::plain::{put_digits, put_formatted, write_load};
use super::{LIMITS, SEED};
use crate::measure::median;
use crate::process::{answer, processor_time};

/// The first of a child's arguments; how it writes numbers follows.
pub const CHILD: &str = "load-child";
/// By a loop of its own, which the bar is for, or by `write!`.
const DIGITS: &str = "digits";
const FORMATTED: &str = "formatted";

const NUM_VARS: u32 = 3;
const WIDTHS: [u32; 3] = [8, 32, 64];
/// Tokens of a run, on average, and runs of each side.
const TOKENS: usize = 64_000_000;
const RUNS: usize = 7;
/// Formulas of which the texts are compared first.
const COMPARED: usize = 20_000;

/// A table of the program at a path.
pub fn markdown(program: &Path) -> io::Result<String> {
    let mut text = String::from(
        "| limit | width | formulas | ours, formulas a second | Rust | ours / Rust | bar | | Rust, `write!` | ours / that |\n\
         |---|---|---|---|---|---|---|---|---|---|\n",
    );
    for limit in LIMITS {
        for width in WIDTHS {
            eprintln!("limit {limit}, width {width}");
            let n = 2 * TOKENS / (limit + 1);
            let [ours, digits, formatted] = times(program, limit, width, n)?;
            let rate = |seconds: f64| format!("{:.2} million", n as f64 / seconds / 1e6);
            let ratio = ours / digits;
            let met = if ratio <= 1.0 { "met" } else { "NOT MET" };
            writeln!(
                text,
                "| {limit} | {width} | {n} | {} | {} | {ratio:.2} | 1.0 | {met} | {} | {:.2} |",
                rate(ours),
                rate(digits),
                rate(formatted),
                ours / formatted
            )
            .expect("a string takes all");
        }
    }
    Ok(text)
}

/// Median seconds of the program and of plain Rust, both ways, run in turn; their texts are the same.
fn times(program: &Path, limit: usize, width: u32, n: usize) -> io::Result<[f64; 3]> {
    let commands = || -> io::Result<[Command; 3]> {
        let plain = |how: &str| -> io::Result<Command> {
            let mut command = Command::new(env::current_exe()?);
            command.args([CHILD, how]);
            Ok(command)
        };
        Ok([Command::new(program), plain(DIGITS)?, plain(FORMATTED)?])
    };
    let input = |n| format!("{SEED} {NUM_VARS} {width} {limit} {n}\n").into_bytes();
    let mut texts = Vec::new();
    for mut command in commands()? {
        texts.push(answer(&mut command, &input(COMPARED))?);
    }
    let lines = texts[1].iter().filter(|&&byte| byte == b'\n').count();
    assert_eq!(lines, COMPARED, "plain Rust writes a line for each");
    assert!(texts.iter().all(|text| *text == texts[1]), "other texts");
    let mut samples = [const { Vec::new() }; 3];
    for run in 0..RUNS {
        let mut commands = commands()?;
        for turn in 0..3 {
            let side = (run + turn) % 3;
            let command = commands[side].stdout(Stdio::null());
            let took: Duration = processor_time(command, [&input(n)[..]])?;
            samples[side].push(took.as_secs_f64());
        }
    }
    Ok(samples.map(median))
}

/// What the child does: the load of the numbers on standard input. False for a word that no way of writing numbers has.
pub fn child(how: &str) -> io::Result<bool> {
    let mut text = Vec::new();
    io::stdin().read_to_end(&mut text)?;
    let out = &mut BufWriter::new(io::stdout().lock());
    match how {
        DIGITS => write_load(&text, out, put_digits)?,
        FORMATTED => write_load(&text, out, put_formatted)?,
        _ => return Ok(false),
    }
    out.flush()?;
    Ok(true)
}

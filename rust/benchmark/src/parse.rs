//! How long a program takes for each byte of a long text: `list`, or `load`, which read theirs in the same way.

use std::fmt::Write;
use std::io;
use std::iter;
use std::path::Path;
use std::process::{Command, Stdio};

use crate::measure::median;
use crate::process::{answer, processor_time};

/// The most nanoseconds for each byte.
const BAR: f64 = 3.0;
/// Texts by what is repeated in them and how many megabytes there are.
const TEXTS: [(&str, &[u8], usize); 4] = [
    ("blanks", b" ", 300),
    ("one number, zeros alone", b"0", 100),
    ("numbers of seven digits and of two", b"1234567 89\n", 100),
    ("letters, no numbers", b"x", 100),
];
const MEGABYTE: usize = 1_000_000;
/// Runs of each text.
const RUNS: usize = 5;

/// A table of the program at a path. Each text is refused: it isn't the numbers that are asked for.
pub fn markdown(program: &Path) -> io::Result<String> {
    let mut text =
        String::from("| text | megabytes | ns a byte | bar | |\n|---|---|---|---|---|\n");
    for (name, repeated, megabytes) in TEXTS {
        let part: Vec<u8> = repeated.iter().copied().cycle().take(MEGABYTE).collect();
        let said = answer(&mut Command::new(program), &part)?;
        assert_eq!(said, b"refused 9\n", "{name}");
        let empty = seconds(program, &part, 0)?;
        let took = seconds(program, &part, megabytes)? - empty;
        let nanoseconds = took * 1e9 / (megabytes * MEGABYTE) as f64;
        let met = if nanoseconds <= BAR { "met" } else { "NOT MET" };
        writeln!(
            text,
            "| {name} | {megabytes} | {nanoseconds:.2} | {BAR:.1} | {met} |"
        )
        .expect("a string takes all");
    }
    Ok(text)
}

/// Median seconds of a run with so many of the parts.
fn seconds(program: &Path, part: &[u8], parts: usize) -> io::Result<f64> {
    let run = |_| {
        let mut command = Command::new(program);
        let took = processor_time(
            command.stdout(Stdio::null()),
            iter::repeat(part).take(parts),
        );
        Ok(took?.as_secs_f64())
    };
    let samples: io::Result<Vec<f64>> = (0..RUNS).map(run).collect();
    Ok(median(samples?))
}

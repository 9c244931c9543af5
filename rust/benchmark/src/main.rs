//! `benchmark`: the tables of docs/BENCHMARKS.md. `benchmark quick`: the same with fewer variables and batches. `benchmark stack`: the
//! stack that each exported call needs. `benchmark load PATH`: the program `load` at this path beside plain Rust. `benchmark parse PATH`:
//! how long the program `list`, or `load`, at this path takes for each byte of a long text.

use std::env;
use std::path::Path;
use std::process::ExitCode;

use benchmark::measure::Plan;
use benchmark::{load, parse, stack, table, time_setting, Line, Setting, VARIABLE_COUNTS, WIDTHS};

/// The variable counts of a short run: the first so many.
const QUICK_COUNTS: usize = 3;

fn main() -> ExitCode {
    let arguments: Vec<String> = env::args().skip(1).collect();
    let text = match arguments.iter().map(String::as_str).collect::<Vec<_>>()[..] {
        [] => table::markdown(&run(&Plan::full(), &VARIABLE_COUNTS)),
        ["quick"] => table::markdown(&run(&Plan::quick(), &VARIABLE_COUNTS[..QUICK_COUNTS])),
        ["stack"] => stack::markdown().expect("this program runs itself"),
        ["load", path] => load::markdown(Path::new(path)).expect("the program runs"),
        ["parse", path] => parse::markdown(Path::new(path)).expect("the program runs"),
        [load::CHILD, how] => return load_child(how).unwrap_or_else(usage),
        [stack::CHILD, name, size] => return stack_child(name, size).unwrap_or_else(usage),
        _ => return usage(),
    };
    print!("{text}");
    ExitCode::SUCCESS
}

fn usage() -> ExitCode {
    eprintln!("usage: benchmark [quick|stack|load PATH|parse PATH]");
    ExitCode::from(2)
}

/// Plain Rust's load of the numbers on standard input.
fn load_child(how: &str) -> Option<ExitCode> {
    let written = load::child(how).expect("standard input and output");
    written.then_some(ExitCode::SUCCESS)
}

/// One call with a stack of so many bytes; it crashes where they are too few.
fn stack_child(name: &str, size: &str) -> Option<ExitCode> {
    let ran = stack::child(name, size.parse().ok()?).ok()?;
    ran.then_some(ExitCode::SUCCESS)
}

/// The lines of every variable count and width.
fn run(plan: &Plan, variable_counts: &[u32]) -> Vec<Line> {
    let mut lines = Vec::new();
    for &num_vars in variable_counts {
        for width in WIDTHS {
            eprintln!("nv {num_vars}, width {width}");
            lines.extend(time_setting(plan, &mut Setting::new(num_vars, width)));
        }
    }
    lines
}

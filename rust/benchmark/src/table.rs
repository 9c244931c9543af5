//! The lines as Markdown.

use std::fmt::Write;

use crate::{Call, Line};

/// A summary of all calls, then a table for each.
pub fn markdown(lines: &[Line]) -> String {
    let mut text = summary(lines);
    for call in Call::ALL {
        let of_call: Vec<&Line> = lines.iter().filter(|line| line.call == call).collect();
        text.push_str(&call_table(call, &of_call));
    }
    text
}

/// Each call's least and largest ratio beside its bar.
fn summary(lines: &[Line]) -> String {
    let mut text =
        String::from("| Call | Bar | Least ratio | Largest ratio | |\n|---|---|---|---|---|\n");
    for call in Call::ALL {
        let ratios = lines.iter().filter(|line| line.call == call);
        let ratios: Vec<f64> = ratios.map(|line| line.times.ratio()).collect();
        let least = ratios.iter().copied().fold(f64::INFINITY, f64::min);
        let largest = ratios.iter().copied().fold(0.0, f64::max);
        let (name, bar, met) = (call.name(), bar(call), verdict(call, largest));
        row(
            &mut text,
            &[name, &bar, &ratio(least), &ratio(largest), met],
        );
    }
    text
}

/// One call's table.
fn call_table(call: Call, lines: &[&Line]) -> String {
    let mut text = format!("\n### {}\n\n", call.name());
    text.push_str("| nv | width | over | ours | Rust | ours / Rust | bar | |\n");
    text.push_str("|---|---|---|---|---|---|---|---|\n");
    for line in lines {
        let times = line.times;
        row(
            &mut text,
            &[
                &line.num_vars.to_string(),
                &line.width.to_string(),
                &line.note,
                &time(times.ours),
                &time(times.rust),
                &ratio(times.ratio()),
                &bar(call),
                verdict(call, times.ratio()),
            ],
        );
    }
    text
}

fn row(text: &mut String, cells: &[&str]) {
    writeln!(text, "| {} |", cells.join(" | ")).expect("a string takes all");
}

fn bar(call: Call) -> String {
    call.bar().map_or("–".to_owned(), |bar| format!("{bar:.1}"))
}

fn verdict(call: Call, ratio: f64) -> &'static str {
    match call.bar() {
        None => "",
        Some(bar) if ratio <= bar => "met",
        Some(_) => "NOT MET",
    }
}

fn ratio(ratio: f64) -> String {
    format!("{ratio:.2}")
}

/// Seconds, in the unit that leaves one to three digits before the point.
fn time(seconds: f64) -> String {
    let units = [(1e-3, 1e3, "ms"), (1e-6, 1e6, "µs")];
    let unit = units.iter().find(|unit| seconds >= unit.0);
    let &(_, factor, name) = unit.unwrap_or(&(0.0, 1e9, "ns"));
    let number = seconds * factor;
    let digits = if number < 10.0 { 2 } else { 1 };
    format!("{number:.digits$} {name}")
}

#[cfg(test)]
mod tests {
    use super::{time, verdict};
    use crate::Call;

    #[test]
    fn units() {
        let texts = [2.5e-8, 1.25e-6, 0.22].map(time);
        assert_eq!(texts, ["25.0 ns", "1.25 µs", "220.0 ms"]);
    }

    #[test]
    fn bars() {
        assert_eq!(verdict(Call::Bank, 0.5), "met");
        assert_eq!(verdict(Call::Bank, 0.51), "NOT MET");
        assert_eq!(verdict(Call::EvaluateCompiled, 9.0), "");
    }
}

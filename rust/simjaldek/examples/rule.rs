//! Replays a short descent with a rule that fires where the height fell in at least M of the last W records:
//! `cargo run -p simjaldek --example rule -- 3 4`.

use simjaldek::{FormulaBuf, Rule, Window};
use std::env;
use std::error::Error;
use std::fmt::Write;
use std::process::ExitCode;

/// What is told with every refusal.
pub const USAGE: &str = "usage: rule M W
the rule fires where the height fell in at least M of the last W records; M 1 to W, W 1 to 64: rule 3 4";

/// The sign of v0 - v1 at width 16: nonzero where the height v0 is less than the height before, v1.
const FELL: &str = "v0 v1 - + c32768 &";
const NUM_VARS: u32 = 2;
const WIDTH: u32 = 16;

/// Heights in metres, the first of them before the first record. The balloon sways, and bursts after the ninth record.
const HEIGHTS: [u64; 19] = [
    30410, 30431, 30447, 30442, 30460, 30457, 30463, 30478, 30490, 30503, 30466, 30371, 30402,
    30288, 30190, 30084, 29970, 29990, 29861,
];

/// How many records the receiver hands over at once.
const PACKET: usize = 5;

fn main() -> ExitCode {
    let arguments: Vec<String> = env::args().skip(1).collect();
    match run(&arguments) {
        Ok(text) => {
            print!("{text}");
            ExitCode::SUCCESS
        }
        Err(error) => {
            eprintln!("{error}\n{USAGE}");
            ExitCode::FAILURE
        }
    }
}

/// What the program prints: a line for each record, its height, whether that fell, and whether the rule fires.
pub fn run(arguments: &[String]) -> Result<String, Box<dyn Error>> {
    let [least, records] = arguments else {
        return Err(format!("two arguments are wanted, not {}", arguments.len()).into());
    };
    let window = Window {
        least: number("M", least)?,
        records: number("W", records)?,
    };
    let formula: FormulaBuf = FELL.parse()?;
    let mut rule = Rule::new(NUM_VARS, WIDTH, formula.as_formula(), window)?;
    let mut text = format!("rule {formula} in {least} of the last {records} records\n");
    let mut record = 0;
    let descent: Vec<[u64; 2]> = HEIGHTS.windows(2).map(|two| [two[1], two[0]]).collect();
    for packet in descent.chunks(PACKET) {
        let answers = rule.feed(packet.as_flattened())?;
        for (place, fires) in answers.into_iter().enumerate() {
            record += 1;
            let height = packet[place][0];
            // bit i of the state is of the record i before the last
            let fell = rule.state() >> (packet.len() - 1 - place) & 1 == 1;
            let fell = if fell { ", fell" } else { "" };
            let fires = if fires { ", the rule fires" } else { "" };
            writeln!(text, "record {record}: height {height}{fell}{fires}")?;
        }
    }
    Ok(text)
}

/// An argument as a number.
fn number(name: &str, text: &str) -> Result<u32, String> {
    text.parse()
        .map_err(|_| format!("{name} is no number: {text}"))
}

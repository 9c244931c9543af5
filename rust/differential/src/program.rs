//! The load program, run on one text after the other, beside the plain statement of what it must print. Neither side's text is kept.

mod texts;

use std::fmt;
use std::io::{self, BufReader, Read, Write};
use std::process::{Child, ChildStdin, ChildStdout, Command, ExitStatus, Stdio};
use std::thread;
use std::time::Duration;

use oracle::spec::load;

/// Bytes that are compared, of a load that is longer.
const BYTES_MAX: u64 = 1 << 26;
/// How long a program may go on after its output is closed: so many turns of so many milliseconds.
const TURNS: usize = 10_000;
const TURN_MILLISECONDS: u64 = 1;
/// Bytes of a text that are told.
const TOLD: usize = 80;

/// What was compared, and what differed.
#[derive(Default)]
pub struct Tally {
    pub texts: u64,
    bytes: u64,
    pub differences: Vec<String>,
}

impl fmt::Display for Tally {
    fn fmt(&self, f: &mut fmt::Formatter<'_>) -> fmt::Result {
        for difference in &self.differences {
            writeln!(f, "{difference}")?;
        }
        let (texts, bytes, count) = (self.texts, self.bytes, self.differences.len());
        writeln!(f, "{texts} texts, {bytes} bytes, {count} differences")
    }
}

/// The program at a path, with these words after it, on every text.
pub fn compare(path: &str, words: &[&str]) -> Tally {
    compare_texts(path, words, &texts::all())
}

/// The same on texts that are printed soon.
pub fn compare_short(path: &str, words: &[&str]) -> Tally {
    compare_texts(path, words, &texts::short())
}

fn compare_texts(path: &str, words: &[&str], texts: &[Vec<u8>]) -> Tally {
    let mut tally = Tally::default();
    for text in texts {
        let mut command = Command::new(path);
        command.args(words);
        if let Err(what) = run(&mut command, text, &mut tally.bytes) {
            let start = String::from_utf8_lossy(&text[..text.len().min(TOLD)]);
            tally.differences.push(format!("{start:?}: {what}"));
        }
        tally.texts += 1;
    }
    tally
}

/// One text: the program must print what it must, and end well.
fn run(command: &mut Command, text: &[u8], bytes: &mut u64) -> Result<(), String> {
    let child = command.stdin(Stdio::piped()).stdout(Stdio::piped()).spawn();
    let mut child = child.map_err(|error| format!("not started: {error}"))?;
    let input = child.stdin.take().expect("a pipe");
    let output = BufReader::new(child.stdout.take().expect("a pipe"));
    let (written, is_whole) = thread::scope(|scope| {
        let writer = scope.spawn(|| hand_over(input, text));
        let is_whole = is_same(output, text, bytes);
        (writer.join().expect("no panic"), is_whole)
    });
    let status = end(&mut child)?;
    if is_whole? && !status.success() {
        return Err(status.to_string());
    }
    written.map_err(|error| format!("text not read: {error}"))
}

/// Writes the text and closes it.
fn hand_over(mut input: ChildStdin, text: &[u8]) -> io::Result<()> {
    input.write_all(text)
}

/// Byte by byte, line after line: whether the output was read to its end. It is closed here.
fn is_same(
    mut output: BufReader<ChildStdout>,
    text: &[u8],
    bytes: &mut u64,
) -> Result<bool, String> {
    let mut compared = 0;
    for (place, line) in (1u64..).zip(load::printed(text)) {
        if compared > BYTES_MAX {
            *bytes += compared;
            return Ok(false);
        }
        let mut ours = Vec::new();
        let got = output
            .by_ref()
            .take(line.len() as u64)
            .read_to_end(&mut ours);
        got.map_err(|error| format!("line {place}: {error}"))?;
        if ours != line.as_bytes() {
            let ours = String::from_utf8_lossy(&ours);
            return Err(format!("line {place}\n  ours {ours:?}\n  theirs {line:?}"));
        }
        compared += line.len() as u64;
    }
    *bytes += compared;
    let mut more = Vec::new();
    let got = output.take(TOLD as u64).read_to_end(&mut more);
    match got {
        Ok(0) => Ok(true),
        Ok(_) => Err(format!(
            "printed more: {:?}",
            String::from_utf8_lossy(&more)
        )),
        Err(error) => Err(format!("the end: {error}")),
    }
}

/// How the program ends; one that doesn't is ended.
fn end(child: &mut Child) -> Result<ExitStatus, String> {
    for _ in 0..TURNS {
        let status = child.try_wait().map_err(|error| error.to_string())?;
        if let Some(status) = status {
            return Ok(status);
        }
        thread::sleep(Duration::from_millis(TURN_MILLISECONDS));
    }
    let killed = child.kill().and_then(|()| child.wait());
    Err(format!("went on after its output was closed: {killed:?}"))
}

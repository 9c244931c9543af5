//! The bytes of a data file: comment lines, lines of unsigned decimals parted by one blank, and texts.

use std::io::Write;

use crate::inputs::INPUT_SEED;

/// The most numbers of a line of a search.
pub const NUMBERS_MAX: usize = 500;

/// The room that a program has for what it prints.
const PRINTED_MAX: usize = 131_072;

#[derive(Default)]
pub struct DataFile {
    bytes: Vec<u8>,
}

impl DataFile {
    /// A file with its comment lines: what it has, its name, and what its lines mean.
    pub fn with_head(contents: &str, name: &str, lines: &[&str]) -> Self {
        let answers = "Answers of the original Rust (binsnake/cobra, Apache-2.0)";
        Self::of_answers(answers, contents, name, lines)
    }

    /// The same, and whose answers it has.
    pub fn of_answers(answers: &str, contents: &str, name: &str, lines: &[&str]) -> Self {
        let mut file = Self::default();
        file.comment(&format!("{answers}: {contents}."));
        file.comment("Made in rust/ by:");
        file.comment(&format!(
            "  COBRA_SRC=<checkout of binsnake/cobra at 72ea8c3334> cargo run --release -p differential -- answers {name}"
        ));
        file.comment("Each line: unsigned decimals parted by one blank, the first is the kind. Inputs that are not named cases come from a");
        file.comment(&format!(
            "splitmix64 generator of the driver's own, for each kind from the state INPUT_SEED = {INPUT_SEED} plus the kind."
        ));
        for line in lines {
            file.comment(line);
        }
        file
    }

    fn comment(&mut self, line: &str) {
        writeln!(self.bytes, "# {line}").expect("a list takes all bytes");
    }

    /// One line: the kind, then the numbers of all parts in turn.
    pub fn line(&mut self, kind: u64, parts: &[&[u64]]) {
        write!(self.bytes, "{kind}").expect("a list takes all bytes");
        for number in parts.iter().copied().flatten() {
            write!(self.bytes, " {number}").expect("a list takes all bytes");
        }
        self.bytes.push(b'\n');
    }

    /// A text and what a program must print of it, after a line with the lengths of both.
    pub fn text(&mut self, kind: u64, text: &[u8], printed: &str) {
        assert!(printed.len() <= PRINTED_MAX);
        self.line(kind, &[&[text.len() as u64, printed.len() as u64]]);
        for part in [text, printed.as_bytes(), b"\n"] {
            self.bytes.extend_from_slice(part);
        }
    }

    /// What the file holds so far.
    pub fn into_bytes(self) -> Vec<u8> {
        self.bytes
    }
}

//! The data file residuals.txt: residual searches over built banks and over rows as they are, and what is refused.

mod built;
mod lent;
mod refused;

use crate::access::{self, Completion, Part, Row};
use crate::answers::data_file::DataFile;
use crate::spec::gates::are_reduced;
use crate::spec::residual::try_everything;

const BUILT: u64 = 21;
const REFUSED: u64 = 22;
const LENT: u64 = 23;

const HEAD: [&str; 27] = [
    "  21 NV W POINTS.. TARGET.. W2 W3 LIMIT ROW.. ANSWER GATE A B",
    "      16 points of NV words each and 16 target words, all below 2^W: of them the Rust's bank at width W. Over its rows",
    "      the first LIMIT pairs of the index at width W2, as in kind 13. ROW: 16 words below 2^W3, searched for at width W3.",
    "      ANSWER: 0 nothing, 1 atoms A and B, 2 atom A and pair B. GATE: the outer gate, 2 Xor or 3 Add; 0 beside nothing.",
    "      The answer is the specification's, by trying everything, where Xor's residual is reduced (02, 2.3). Where the words",
    "      of atoms and pairs are below 2^W3 the Rust's is the same: its gate_residual, and ValMap::find in its two maps,",
    "      looped over the two gates and the atoms as the specification has it, up to the first hit, without its check by",
    "      samples. Where some reach it the Rust is not asked (docs/DIFFERENCES.md, D3).",
    "  22 W COUNT ATOMSLEN N LISTEDLEN WORD REFUSAL",
    "      Width, claimed atoms, length of their rows, claimed pairs, length of their rows. All row words are 0. The target's",
    "      last word is WORD, the others are 0. Not asked of the Rust: the refusal is the specification's for the residual",
    "      search (least that applies; 0: not refused), 2, 4, 5 or 7.",
    "  23 W COUNT N ATOMS.. PAIRS.. TARGET.. ANSWER GATE A B",
    "      The rows of COUNT atoms and of N pairs as they are lent, and the target, 16 words each; the answer as in kind 21.",
    "The first lines of kind 21 are over P2's bank, with its whole index and cut ones. After them come banks whose index is",
    "small, whole and cut; rows that are first completed by the last pair of a whole index, and the same without that pair;",
    "banks of all styles at every width; searches at another width than the bank's, or than the index's too, whose words may",
    "then reach 2^W3; and of some rows the one that is found last. The row is the sum or the xor of two atoms or of an atom and",
    "a pair, such a row with one word changed (the first, the sixteenth, any), any row, one word throughout, or zero. The limit",
    "is at most 500.",
    "In lines of kind 22 a lent array has at most 8,000 numbers.",
    "The first lines of kind 23 are named cases, mostly of rows that are one word sixteen times, in this order: words that",
    "reach 2^W (width 8, atoms 257 and 4, target 5: 4 completes 257 under Xor; a word that reaches 2^W is completed, and never",
    "completes another); the same row in several slots; an atom with itself; b below a; Xor before Add; the bank before the",
    "index, but a lesser atom before both; differences below 0; the first and the last slots; no atoms; rows that differ from",
    "the residual in one word, in a bit from 2^W up too. After them come rows of few kinds, here and there with words from 2^W",
    "up: as many lines with nothing as with two atoms and with an atom and a pair, by Xor and by Add.",
];

/// The whole file.
pub fn data_file() -> Vec<u8> {
    let mut file = DataFile::with_head("residual searches", "residuals", &HEAD);
    built::lines(&mut file);
    refused::lines(&mut file);
    lent::lines(&mut file);
    file.into_bytes()
}

/// The Rust's answer for each target where all words are below 2^width, else the specification's.
fn answers(targets: &[Row], atoms: &[Row], pairs: &[Row], width: u32) -> Vec<Option<Completion>> {
    if are_reduced(atoms, width) && are_reduced(pairs, width) {
        return access::completions(targets, atoms, pairs, width);
    }
    let stated = |target| try_everything(target, atoms, pairs, width);
    targets.iter().map(stated).collect()
}

/// The same for one target; the Rust's must be the specification's.
fn answer(target: &Row, atoms: &[Row], pairs: &[Row], width: u32) -> Option<Completion> {
    let found = answers(&[*target], atoms, pairs, width)[0];
    assert_eq!(found, try_everything(target, atoms, pairs, width));
    found
}

/// An answer as a line has it.
fn numbers(found: Option<Completion>) -> [u64; 4] {
    let Some(Completion { gate, atom, other }) = found else {
        return [0; 4];
    };
    let (kind, slot) = match other {
        Part::Atom(slot) => (1, slot),
        Part::Pair(slot) => (2, slot),
    };
    [kind, gate, atom, slot].map(|number| number as u64)
}

#[cfg(test)]
mod tests {
    use super::{data_file, BUILT, LENT};

    /// Each answer stands in several lines of both kinds that have answers.
    #[test]
    fn every_answer() {
        let text = String::from_utf8(data_file()).unwrap();
        let lines: Vec<Vec<u64>> = text
            .lines()
            .filter(|line| !line.starts_with('#'))
            .map(|line| line.split(' ').map(|word| word.parse().unwrap()).collect())
            .collect();
        for kind in [BUILT, LENT] {
            for answer in [[0, 0], [1, 2], [1, 3], [2, 2], [2, 3]] {
                let same =
                    |line: &&Vec<u64>| line[0] == kind && line[line.len() - 4..][..2] == answer;
                let count = lines.iter().filter(same).count();
                assert!(count >= 8, "{count} lines of kind {kind} with {answer:?}");
            }
        }
    }
}

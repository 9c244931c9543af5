//! The data file loads.txt: formulas of the test load, what is refused of them, and texts for the load program.

mod drawn;
mod malformed;
mod printed;
mod refused;

use crate::answers::data_file::DataFile;
use crate::spec::lent::DrawFormula;
use crate::spec::load::{draw, Choices};
use crate::spec::refusals::NONE;

const DRAWN: u64 = 24;
const PRINTED: u64 = 25;

const HEAD: [&str; 22] = [
    "  24 NV W LIMIT STATE OPSLEN OPERANDSLEN REFUSAL COUNT NEXT OPS.. OPERANDS..",
    "      One formula, drawn from STATE into arrays of OPSLEN opcodes and OPERANDSLEN operands: COUNT opcodes and as many",
    "      operands, and the state handed on. Places past the count, and all where it is refused, hold what they held before.",
    "      Opcodes as in formulas.txt. REFUSAL: the least of 1, 2, 4 and 6 that applies; then COUNT is 0, and NEXT is STATE.",
    "  25 A B",
    "      Right after the line's end come A bytes, the text; then B bytes, what the load program must print of it; then a line",
    "      end. Both may hold line ends, and the text bytes of any kind.",
    "      Of a text that is not refused: as many formulas in postfix (as in listings.txt), a line each, as its last number says.",
    "      Else `refused` and the number: 9 before all, then the least of 1, 2 and 6 that applies.",
    "      The text: seed, variable count, width, limit, how many formulas.",
    "The words are drawn by the Rust's splitmix64, and the Rust takes every formula of kind 24 for one: its value and its cost are",
    "the specification's. Whether the rest of a length can still leave exactly one value is found by trying every opcode for each",
    "token to come.",
    "The first line of kind 24 is worked out by hand. Then come the first formulas of some loads, each from the state that the line",
    "before it hands on (the first of them is that of seed 1, two variables, width 32, limit 7); each variable count at four widths",
    "and five limits; every limit; every width; states at the ends and one step before them. Some arrays are longer than the",
    "limit. After them come refusals and close neighbours that are not refused: each number, limits and counts that are good when",
    "cut to fewer bits, arrays that are too short for the limit but not for the formula, several faults at once.",
    "Texts of kind 25: loads of several lengths, 0 among them, the shorter ones beginning the longer ones; each variable count;",
    "the longest lines; texts that are refused 1, 2 or 6, also where no formula is asked for; texts that are refused 9, some of which",
    "would be refused otherwise if they were well formed; other blanks and line ends, leading zeros, one text that is longer than",
    "two reads of 65,536 bytes.",
];

/// Whose answers they are.
const ANSWERS: &str = "Answers of the specification, over splitmix64 of the original Rust (binsnake/cobra, Apache-2.0)";

/// The whole file.
pub fn data_file() -> Vec<u8> {
    let mut file = DataFile::of_answers(ANSWERS, "test loads", "loads", &HEAD);
    drawn::lines(&mut file);
    refused::lines(&mut file);
    printed::texts(&mut file);
    malformed::texts(&mut file);
    file.into_bytes()
}

/// A line of kind 24. The state handed on.
fn line(file: &mut DataFile, handed: &DrawFormula, state: u64) -> u64 {
    let refusal = handed.refusal();
    let (ops, operands, next) = if refusal == NONE {
        let (formula, next) = draw(state, choices(handed));
        drawn::check(&formula, handed);
        let ops: Vec<u64> = formula.ops.iter().copied().map(u64::from).collect();
        (ops, formula.operands, next)
    } else {
        (Vec::new(), Vec::new(), state)
    };
    let asked = [handed.num_vars, handed.width, handed.limit, state];
    let lengths = [handed.ops, handed.operands];
    let answer = [refusal, ops.len() as u64, next];
    file.line(DRAWN, &[&asked, &lengths, &answer, &ops, &operands]);
    next
}

fn choices(handed: &DrawFormula) -> Choices {
    Choices {
        num_vars: handed.num_vars,
        width: handed.width as u32,
        limit: handed.limit,
    }
}

#[cfg(test)]
mod tests {
    use super::{data_file, DRAWN, PRINTED};

    /// A file without its first line.
    fn line(file: &[u8]) -> (&[u8], &[u8]) {
        let end = file.iter().position(|&byte| byte == b'\n').expect("a line");
        (&file[..end], &file[end + 1..])
    }

    /// Lines of numbers, then texts whose lengths lead from case to case. All opcodes, refusals and many lengths come up.
    #[test]
    fn every_line() {
        let file = data_file();
        let (mut rest, mut counts) = (&file[..], [0; 2]);
        let (mut lengths, mut ops, mut refusals) = ([0; 65], [0; 9], [0; 7]);
        while !rest.is_empty() {
            let (head, after) = line(rest);
            rest = after;
            if head.starts_with(b"# ") {
                continue;
            }
            let head = std::str::from_utf8(head).unwrap();
            let numbers: Vec<u64> = head.split(' ').map(|n| n.parse().unwrap()).collect();
            if numbers[0] == DRAWN {
                let count = numbers[8] as usize;
                assert_eq!(numbers.len(), 10 + 2 * count);
                lengths[count] += 1;
                refusals[numbers[7] as usize] += 1;
                for &op in &numbers[10..10 + count] {
                    ops[op as usize] += 1;
                }
                counts[0] += 1;
            } else {
                assert_eq!((numbers.len(), numbers[0]), (3, PRINTED));
                assert!(numbers[2] < 100_000);
                let length = (numbers[1] + numbers[2]) as usize;
                assert_eq!(rest[length], b'\n');
                rest = &rest[length + 1..];
                counts[1] += 1;
            }
        }
        assert!(counts.iter().all(|&count| count >= 100), "{counts:?}");
        assert!(lengths.iter().filter(|&&count| count > 0).count() > 50);
        assert!(ops.iter().all(|&count| count > 100), "{ops:?}");
        assert!([1, 2, 4, 6].iter().all(|&number| refusals[number] > 5));
        assert!(file.len() < 700_000, "{}", file.len());
    }
}

//! The data file listings.txt: texts for the listing program, and what it must print of each.

mod answered;
mod malformed;
mod printed;
mod refused;
mod shapes;
mod texts;

use crate::answers::data_file::DataFile;
use crate::made::banks::BankInput;
use crate::spec::listing as spec;
use crate::spec::refusals::NONE;
use crate::spec::texts::refusal_line;

const LISTING: u64 = 20;

const HEAD: [&str; 16] = [
    "  20 A B",
    "      Right after the line's end come A bytes, the text; then B bytes, what the listing program must print of it; then a",
    "      line end. Both may hold line ends, and the text bytes of any kind.",
    "      Of a text that is not refused: one line `atoms N pairs M whole` (or `cut`), N lines of costs (size, products,",
    "      depth), N formulas in postfix (c and a word: constant; v and a number: variable; + * & | ^ ! - for Add, Mul, And,",
    "      Or, Xor, Not, Neg) and M lines of a gate (0 And, 1 Or, 2 Xor, 3 Add, 4 Mul), b and c. Atoms and pairs are the Rust's:",
    "      populate over the points, the seeds of try_template_decomposition for the target, and the first pairs of",
    "      build_inner_compositions up to the limit; `cut` if the Rust lists more.",
    "      Else `refused` and the number. Not asked of the Rust: the refusal is the specification's for the listing program, 9",
    "      before all, then the least of 1, 2, 3 and 5 that applies.",
    "      The text: variable count, width, limit, the words of 16 points, 16 target words.",
    "First come the texts of the specification's P1, P2 (limits 0, 35, 36, 37 and 500), P9 and P10; then for each variable count",
    "points and targets of all styles at several widths.",
    "After them come texts that are refused 1, 2, 3 or 5, with close neighbours that are not; texts that are refused 9, some",
    "of which would be refused otherwise if they were well formed; and texts of odd shape (other blanks and line ends, leading",
    "zeros, one that is longer than two reads of 65,536 bytes), all good but the last, which has more numbers than are kept.",
];

/// The whole file.
pub fn data_file() -> Vec<u8> {
    let mut file = Listings {
        file: DataFile::with_head("listings of banks and indexes", "listings", &HEAD),
    };
    answered::cases(&mut file);
    refused::cases(&mut file);
    malformed::cases(&mut file);
    shapes::cases(&mut file);
    file.file.into_bytes()
}

/// What the listing program must print of a text.
pub fn expected(text: &[u8]) -> String {
    match spec::refusal(text) {
        NONE => printed::listing(&spec::numbers(text).expect("not refused")),
        refusal => refusal_line(refusal),
    }
}

/// The plain text that asks for a bank and an index up to a limit.
pub fn text_for(bank: &BankInput, limit: u64) -> Vec<u8> {
    texts::plain(&texts::numbers_of(bank, limit))
}

struct Listings {
    file: DataFile,
}

impl Listings {
    /// One text. Its refusal is stated by hand, and the table must say the same.
    fn case(&mut self, text: &[u8], refusal: u64) {
        assert_eq!(spec::refusal(text), refusal);
        self.file.text(LISTING, text, &expected(text));
    }
}

#[cfg(test)]
mod tests {
    use super::data_file;

    /// A file without its first line.
    fn line(file: &[u8]) -> (&[u8], &[u8]) {
        let end = file.iter().position(|&byte| byte == b'\n').expect("a line");
        (&file[..end], &file[end + 1..])
    }

    /// The counts of a case's line lead to its line end and the next case.
    #[test]
    fn counts_lead_from_case_to_case() {
        let file = data_file();
        let (mut rest, mut cases) = (&file[..], 0);
        while !rest.is_empty() {
            let (head, after) = line(rest);
            rest = after;
            if head.starts_with(b"# ") {
                continue;
            }
            let head = String::from_utf8_lossy(head);
            let numbers: Vec<usize> = head.split(' ').map(|n| n.parse().unwrap()).collect();
            assert_eq!((numbers.len(), numbers[0]), (3, 20));
            let length = numbers[1] + numbers[2];
            assert_eq!((rest[length - 1], rest[length]), (b'\n', b'\n'));
            rest = &rest[length + 1..];
            cases += 1;
        }
        assert!(cases >= 80);
        assert!(file.len() < 450_000);
    }
}

//! The data file banks.txt: whole banks, and what the bank build refuses.

mod answered;
mod refused;

pub use crate::made::banks as made;

use crate::answers::data_file::DataFile;

const ANSWERED: u64 = 11;
const REFUSED: u64 = 12;

const HEAD: [&str; 15] = [
    "  11 NV W POINTS.. TARGET.. COUNT DLENGTHS DOPS DOPERANDS DCOSTS DROWS",
    "      16 points of NV words each and 16 target words, all below 2^W. The Rust's bank (populate over the points, then the",
    "      seeds of try_template_decomposition for the target) has COUNT atoms; of five lists a digest each: of every atom in",
    "      turn its token count; its 6 opcodes, unused ones 255; its 6 operands, unused ones 0; its cost (size, products,",
    "      depth); its 16 row words.",
    "      Opcodes: 0 Constant, 1 Variable, 2 Add, 3 Mul, 4 And, 5 Or, 6 Xor, 7 Not, 8 Neg.",
    "      Digest: h = 14695981039346656037; for each number v, h = (h xor v) * 1099511628211 modulo 2^64, then",
    "      h = h xor (h >> 29); the digest is h.",
    "  12 NV W POINTS.. TARGET.. LENGTHS OPS OPERANDS COSTS ROWS WORK REFUSAL",
    "      16 points of 6 words each, those past NV included, and 16 target words; then how long the lent arrays are. Not",
    "      asked of the Rust: the refusal is the specification's for the bank build (least number that applies; 0: not",
    "      refused), 1, 2, 4 or 5.",
    "The first five lines of kind 11 are the inputs of the specification's P1, P2, P9 (before it the same points with a target",
    "of zeros) and P10; after them come points and targets of all styles at every width, then small widths and some more for",
    "each variable count.",
];

/// The whole file.
pub fn data_file() -> Vec<u8> {
    let mut file = DataFile::with_head("banks of atoms", "banks", &HEAD);
    answered::lines(&mut file);
    refused::lines(&mut file);
    file.into_bytes()
}

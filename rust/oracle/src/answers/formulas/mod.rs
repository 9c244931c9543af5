//! The data file formulas.txt: values, costs and refusals of formulas.

mod answered;
mod refused;

pub use crate::made::formulas as made;

use crate::answers::data_file::DataFile;

const ANSWERED: u64 = 9;
const REFUSED: u64 = 10;

const HEAD: [&str; 8] = [
    "Formulas are in postfix, with the opcodes 0 Constant, 1 Variable, 2 Add, 3 Mul, 4 And, 5 Or, 6 Xor, 7 Not, 8 Neg.",
    "  9 NV W COUNT TOKENS.. WORDS.. VALUE SIZE PRODUCTS DEPTH",
    "      COUNT tokens, each OP and, only where OP is 0 or 1, its OPERAND (of the others it is 0); NV input words; the",
    "      value by Evaluator::from_expr and eval at width W, and the numbers of compute_cost.",
    "  10 NV W COUNT OPSLEN OPERANDSLEN WORDSLEN OPS.. OPERANDS.. WORDS.. EVALREFUSAL COSTREFUSAL",
    "      COUNT tokens claimed; OPSLEN opcodes, OPERANDSLEN operands and WORDSLEN input words handed in. Not asked of the",
    "      Rust: the refusals are the specification's (least number that applies; 0: not refused), for evaluating 1, 2, 4",
    "      or 6, for the cost 1, 4 or 6.",
];

/// The whole file.
pub fn data_file() -> Vec<u8> {
    let mut file = DataFile::with_head("values and costs of formulas", "formulas", &HEAD);
    answered::lines(&mut file);
    refused::lines(&mut file);
    file.into_bytes()
}

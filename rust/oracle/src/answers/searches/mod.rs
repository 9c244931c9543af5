//! The data file searches.txt: lists of candidates, product searches, and what both refuse.

mod candidates;
mod candidates_refused;
mod products;
mod products_refused;

use crate::answers::data_file::DataFile;
use crate::spec::lent::Pairs;

const CANDIDATES: u64 = 15;
const PRODUCTS: u64 = 16;
const PRODUCTS_REFUSED: u64 = 17;
const CANDIDATES_REFUSED: u64 = 18;

const HEAD: [&str; 36] = [
    "  15 W N WORDS.. ORDER.. P T ANSWER COUNT SLOTS..",
    "      N pairs with these first words, their order list, and p and t. ANSWER: 0 used (collect_mul_probe0_candidates says",
    "      true), 1 not used, 100 + r refused r; then the COUNT slots of the list, none unless used. The Rust's list comes in",
    "      the specification's order. It lacks the slots whose words reach 2^W (docs/DIFFERENCES.md, D1): where there are",
    "      such words, the answer is the specification's. The refusals (2, 5, 8) are the specification's.",
    "  16 NV W POINTS.. TARGET.. W2 W3 LIMIT ROW.. ANSWER A B",
    "      16 points of NV words each and 16 target words, all below 2^W: of them the Rust's bank at width W, its formulas",
    "      too. Over its rows the first LIMIT pairs of the index at width W2: the Rust's, but where the bank's words reach",
    "      2^W2 that of 02, 2.3, whose rows are reduced (D3). ROW: 16 words below 2^W3, searched for at width W3.",
    "      ANSWER: 0 nothing, 1 atoms A and B, 2 atom A and pair B. The answer is the specification's: of the products that",
    "      fit the cheapest, first among equals. The Rust's layer 1 keeps the cheapest two atoms, and its product loop finds",
    "      the first atom and pair that fit (D2); both, each to its end, keep this answer where no pair's first word reaches",
    "      2^W3 (D1); else W3 is less than W2.",
    "  17 W COUNT LENGTHSLEN OPSLEN OPERANDSLEN ATOMSLEN N PAIRSLEN LISTEDLEN ORDERLEN WORD SWAP BADATOM LENGTH OP OPERAND",
    "      BADPAIR GATE B C REFUSAL",
    "      Width; claimed atoms, the lengths of the arrays of their lengths, opcodes, operands and rows; claimed pairs, the",
    "      lengths of the arrays of their words and rows and of the order list. Each atom is the constant 0 (length 1, opcodes",
    "      0 and five times 255, operands 0), but if BADATOM is below 479 that one has the recorded length LENGTH, the first",
    "      opcode OP and the first operand OPERAND. Each pair is And of atoms 0 and 0, but if BADPAIR is below 500 that one has",
    "      the words GATE B C. All row words are 0; the order list is 0, 1, 2 and so on, the first two exchanged if SWAP is 1.",
    "      The target's last word is WORD, the others are 0. Not asked of the Rust: the refusal is the specification's for the",
    "      product search (least that applies; 0: not refused), 2, 4, 5, 6, 7 or 8.",
    "  18 W N LISTEDLEN ORDERLEN LISTLEN P T SWAP REFUSAL",
    "      The same for the candidates, with the length of the lent list.",
    "The first lines of kind 15 are the specification's P5 to P8 (of P7 the 256 first words in two lines). After them come",
    "every width, with p odd and even; p with 7, 8, 9 and more trailing zeros; p = 0; no pairs; 200 pairs; words that reach",
    "2^W; then what is refused: wrong order lists, p or t too large, widths; then the first and the last solutions of some p",
    "and t, their neighbours, and what wrong steps from one to the next come to.",
    "The first lines of kind 16 are over P2's bank, the very first for the row of v0 times v0, then D1's inputs, each with an",
    "index at the search's width and with its own, and D2's. After them come banks whose index is small, banks of all styles at",
    "every width, searches at another width than the bank's, searches whose answer hangs on the order in which pairs are tried,",
    "searches where one trial fits, where several fit at the least cost, where an atom and a pair are cheaper than two atoms that",
    "fit, and where they come after the first that fit, and searches that very many trials fit (zeros over a thousand). The row",
    "is the product of two atoms or of an atom and a pair, such a product with one word changed (the first, the sixteenth, any),",
    "any row, one word throughout, words that are 0 or 2^(W3 - 1), or zero. The limit is at most 500; some indexes are whole.",
    "In lines of kinds 17 and 18 a lent array has at most 8,000 numbers.",
];

/// The whole file.
pub fn data_file() -> Vec<u8> {
    let mut file = DataFile::with_head("candidates and product searches", "searches", &HEAD);
    candidates::lines(&mut file);
    products::lines(&mut file);
    products_refused::lines(&mut file);
    candidates_refused::lines(&mut file);
    file.into_bytes()
}

/// Pairs whose row words are all 0, and their order list, its first two entries exchanged if `swap` is 1.
fn zero_pairs(count: u64, rows: u64, order: u64, swap: u64) -> Pairs {
    let mut order: Vec<u64> = (0..order).collect();
    if swap == 1 {
        order.swap(0, 1);
    }
    Pairs {
        count,
        rows,
        first_words: vec![0; rows as usize / 16],
        order,
    }
}

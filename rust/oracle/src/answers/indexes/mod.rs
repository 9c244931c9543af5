//! The data file indexes.txt: indexes of pairs with their order lists, and what the index build refuses.

mod answered;
mod refused;

use crate::answers::data_file::DataFile;

const ANSWERED: u64 = 13;
const REFUSED: u64 = 14;

const HEAD: [&str; 18] = [
    "  13 NV W POINTS.. TARGET.. W2 LIMIT PAIRS CUT DPAIRS DROWS DORDER",
    "      16 points of NV words each and 16 target words, all below 2^W: of them the Rust's bank at width W. Over its rows",
    "      build_inner_compositions at width W2, of which the first LIMIT pairs count. PAIRS: how many there are, CUT: 1 if",
    "      the Rust lists more, else 0; of three lists a digest each: of every pair in turn its gate, b and c; its 16 row",
    "      words; and the order list (the Rust's buckets by ascending first word, slots from LIMIT up left out).",
    "      Gates: 0 And, 1 Or, 2 Xor, 3 Add, 4 Mul. The answer is the Rust's where the bank's words are below 2^W2. Where some",
    "      reach it, it is that of 02, 2.3: the rows of all gates reduced at width W2 (docs/DIFFERENCES.md, D3), found by trying",
    "      every gate on every two atoms.",
    "      Digest: h = 14695981039346656037; for each number v, h = (h xor v) * 1099511628211 modulo 2^64, then",
    "      h = h xor (h >> 29); the digest is h.",
    "  14 W COUNT ROWSLEN LIMIT PAIRSLEN PAIRROWSLEN ORDERLEN WORKLEN REFUSAL",
    "      Width, claimed atoms, length of the bank's rows, limit, and how long the lent arrays are. Not asked of the Rust:",
    "      the refusal is the specification's for the index build (least that applies; 0: not refused), 2, 3, 4 or 7.",
    "The first lines of kind 13 are over the banks of the specification's P1 and P2 (at width 2 that is P3: 36 pairs in all;",
    "the digests where LIMIT is 1 are those of its first pair, 0 1 6, and its row, 1 0 1 0 four times), then over a bank of",
    "width 3 with an index of width 2, 47 pairs in all (the Rust's has 216). After them come banks whose index is small, each",
    "with several limits; banks of all styles at every width; and banks whose index is built at another width than they are,",
    "where their words may reach 2^W2.",
];

/// The whole file.
pub fn data_file() -> Vec<u8> {
    let mut file = DataFile::with_head("indexes of pairs", "indexes", &HEAD);
    answered::lines(&mut file);
    refused::lines(&mut file);
    file.into_bytes()
}

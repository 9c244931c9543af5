//! Texts for the load program.

use oracle::inputs::Inputs;

/// More than two reads of 65,536 bytes.
const MANY_BLANKS: usize = 150_000;
/// Seeds that are no others' neighbours, and the ends.
const SEEDS: [u64; 5] = [0, 1, u64::MAX, 1 << 63, 0x9E37_79B9_7F4A_7C15];
const LIMITS: [u64; 5] = [64, 7, 1, 3, 2];
const WIDTHS: [u64; 7] = [64, 1, 8, 63, 32, 2, 33];

/// Words in place of numbers, of which no text has five numbers.
const MALFORMED: [&str; 26] = [
    "",
    " ",
    "\n",
    "1",
    "1 2 32 7",
    "1 2 32 7 ",
    "1 2 32 7 3 4",
    "1 2 32 7 3\n0",
    "1\t2 32 7 3",
    "1 2 32 7 3\t",
    "\t1 2 32 7 3",
    "1 2 32 7 3\0",
    "1 2 32 7 3x",
    "1 2 32 7 -3",
    "+1 2 32 7 3",
    "1 2 32 7 3.",
    "1,2,32,7,3",
    "1 2 32 7 0x3",
    "1 2 32 7 18446744073709551616",
    "18446744073709551616 2 32 7 3",
    "1 2 32 7 99999999999999999999",
    "1 2 32 7 000018446744073709551616",
    "1 18446744073709551617 32 7 3",
    // they would be refused otherwise
    "1 0 65 65",
    "1 7 32 7 3 3",
    "1 2 65 0 x",
];

/// Five numbers, one or several of them refused 1, 2 or 6, also where nothing would be printed.
const REFUSED: [&str; 28] = [
    "1 0 32 7 3",
    "1 7 32 7 3",
    "1 8 32 7 0",
    "1 256 32 7 3",
    "1 4294967296 32 7 3",
    "1 4294967297 32 7 3",
    "1 18446744073709551615 32 7 3",
    "1 2 0 7 3",
    "1 2 65 7 3",
    "1 2 128 7 0",
    "1 2 264 7 3",
    "1 2 4294967328 7 3",
    "1 2 18446744073709551615 7 3",
    "1 2 32 0 3",
    "1 2 32 65 3",
    "1 2 32 66 0",
    "1 2 32 263 3",
    "1 2 32 4294967303 3",
    "1 2 32 18446744073709551615 3",
    // the least number counts
    "1 0 0 7 3",
    "1 0 32 0 3",
    "1 2 0 0 3",
    "1 7 65 65 3",
    "1 7 65 65 0",
    "1 2 65 65 0",
    "0 0 0 0 0",
    "18446744073709551615 18446744073709551615 18446744073709551615 18446744073709551615 18446744073709551615",
    "1 2 32 65 18446744073709551615",
];

/// Five good numbers in other shapes.
const SHAPES: [&str; 10] = [
    "1 2 32 7 30",
    "1\n2\n32\n7\n30\n",
    "1\r\n2 32 7\r\n30\r\n",
    "\r\r1\r2\r32\r7\r30\r",
    "   1  2   32    7     30      ",
    "\n \r\n1 2\n\n32 7 30",
    "01 002 0032 00007 0000030\n",
    "0000000000000000000000000001 2 32 7 00000000000000000000000000000000030",
    "18446744073709551615 6 64 64 5\n",
    "0018446744073709551615 6 64 64 5\n",
];

/// Every text.
pub fn all() -> Vec<Vec<u8>> {
    let mut texts = short();
    texts.push(b"1 2 32 7 10000\n".to_vec());
    for n in [10_000, 100_000] {
        for (turn, limit) in (0..).zip(LIMITS) {
            texts.push(loads(turn, limit, n));
        }
    }
    // more than is compared
    texts.push(b"1 2 32 7 18446744073709551615\n".to_vec());
    texts.push(b"2 6 64 64 18446744073709551615\n".to_vec());
    texts
}

/// Those of which little is printed.
pub fn short() -> Vec<Vec<u8>> {
    let named = [&MALFORMED[..], &REFUSED, &SHAPES].concat();
    let mut texts: Vec<Vec<u8>> = named.iter().map(|text| text.as_bytes().to_vec()).collect();
    for turn in 0..150 {
        let limit = 1 + turn * 13 % 64;
        texts.push(loads(turn, limit, [0, 1, 2, 100][turn as usize % 4]));
    }
    let blanks = " ".repeat(MANY_BLANKS);
    for text in [
        format!("1 2 32{blanks}7 30\n"),
        format!("{blanks}1 2 32 7 30{blanks}"),
        format!("1 2 32 7 30{blanks}0"),
        format!("{}1 2 32 7 30", "0".repeat(MANY_BLANKS)),
        "3 ".repeat(MANY_BLANKS),
    ] {
        texts.push(text.into_bytes());
    }
    texts
}

/// Numbers in turn, each with another seed.
fn loads(turn: u64, limit: u64, n: u64) -> Vec<u8> {
    let any = Inputs::from_seed(turn).word();
    let seed = SEEDS.get(turn as usize).copied().unwrap_or(any);
    let (num_vars, width) = (1 + turn % 6, WIDTHS[turn as usize % WIDTHS.len()]);
    format!("{seed} {num_vars} {width} {limit} {n}\n").into_bytes()
}

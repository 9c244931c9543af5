//! What spoils the text of a program.

/// No decimals, or decimals from 2^64 on; some are good when cut to 64 bits or read up to their first bad byte.
pub const BAD_WORDS: [&[u8]; 20] = [
    b"-1",
    b"-0",
    b"+1",
    b"a",
    b"1a",
    b"a1",
    b"1a1",
    b"0x1",
    b"1e0",
    b"1.0",
    b"1.",
    b"1,",
    b"1_0",
    b"18446744073709551616",
    b"18446744073709551617",
    b"18446744073709551625",
    b"00018446744073709551616",
    b"36893488147419103233",
    b"99999999999999999999",
    b"100000000000000000000",
];

/// Neither digits nor parting bytes: the neighbours of both, other blanks, the ends of the range.
pub const BAD_BYTES: [u8; 16] = [
    0, 1, 8, 9, 11, 12, 14, 26, 31, 33, 47, 58, 127, 128, 160, 255,
];

//! The test load in plain Rust: what the library's call and the program `load` do, written for speed and without unsafe code.

use std::io::{self, Write};

use simjaldek::FORMULA_TOKENS_MAX;

/// What an opcode is picked from, in number order, by the values that are there and the tokens that are to come.
const LEAVES: [u8; 2] = [0, 1];
const UNARY: [u8; 2] = [7, 8];
const LEAVES_AND_UNARY: [u8; 4] = [0, 1, 7, 8];
const BINARY: [u8; 5] = [2, 3, 4, 5, 6];
const BINARY_AND_UNARY: [u8; 7] = [2, 3, 4, 5, 6, 7, 8];
const ALL: [u8; 9] = [0, 1, 2, 3, 4, 5, 6, 7, 8];
/// Values that each opcode takes; each leaves one.
const TAKES: [usize; 9] = [0, 0, 2, 2, 2, 2, 2, 1, 1];
/// The signs of the opcodes; a number follows the first two.
const SIGNS: [u8; 9] = *b"cv+*&|^!-";
/// The numbers from 00 to 99.
const DIGIT_PAIRS: &[u8; 200] = b"00010203040506070809\
    10111213141516171819202122232425262728293031323334353637383940414243444546474849\
    50515253545556575859606162636465666768697071727374757677787980818283848586878889\
    90919293949596979899";
/// The most bytes of a line: each token has a letter, at most 20 digits and a byte after it.
const LINE_MAX: usize = 22 * FORMULA_TOKENS_MAX;
/// The bytes that are written at once.
const BUFFER: usize = 1 << 16;

/// What formulas are drawn from.
#[derive(Clone, Copy, Debug)]
pub struct Source {
    pub state: u64,
    pub num_vars: u32,
    pub width: u32,
    pub limit: usize,
}

impl Source {
    /// Draws a formula into the first places of the arrays: its count of tokens, or the number of a refusal.
    pub fn draw_formula(&mut self, ops: &mut [u8], operands: &mut [u64]) -> Result<usize, u32> {
        if !(1..=6).contains(&self.num_vars) {
            return Err(1);
        }
        if !(1..=64).contains(&self.width) {
            return Err(2);
        }
        if !(1..=FORMULA_TOKENS_MAX).contains(&self.limit) {
            return Err(6);
        }
        if ops.len().min(operands.len()) < self.limit {
            return Err(4);
        }
        Ok(self.draw_tokens(ops, operands))
    }

    fn draw_tokens(&mut self, ops: &mut [u8], operands: &mut [u64]) -> usize {
        let mask = u64::MAX >> (64 - self.width);
        let length = 1 + (self.draw() % self.limit as u64) as usize;
        let mut values = 0;
        let places = ops[..length].iter_mut().zip(&mut operands[..length]);
        for (place, (op, operand)) in places.enumerate() {
            *op = opcode(self.draw(), values, length - 1 - place);
            *operand = match op {
                0 => self.draw() & mask,
                1 => self.draw() % u64::from(self.num_vars),
                _ => 0,
            };
            values = values + 1 - TAKES[usize::from(*op)];
        }
        length
    }

    /// One step of splitmix64.
    fn draw(&mut self) -> u64 {
        self.state = self.state.wrapping_add(0x9E37_79B9_7F4A_7C15);
        let z = (self.state ^ (self.state >> 30)).wrapping_mul(0xBF58_476D_1CE4_E5B9);
        let z = (z ^ (z >> 27)).wrapping_mul(0x94D0_49BB_1331_11EB);
        z ^ (z >> 31)
    }
}

/// The opcode that a word picks with so many values there and so many tokens to come after it.
fn opcode(word: u64, values: usize, left: usize) -> u8 {
    match values {
        0 => one_of(&LEAVES, word),
        1 if left == 0 => one_of(&UNARY, word),
        1 => one_of(&LEAVES_AND_UNARY, word),
        _ if values <= left => one_of(&ALL, word),
        _ if values == left + 1 => one_of(&BINARY_AND_UNARY, word),
        _ => one_of(&BINARY, word),
    }
}

/// With the count known when it is compiled, so that nothing is divided.
fn one_of<const COUNT: usize>(choices: &[u8; COUNT], word: u64) -> u8 {
    choices[(word % COUNT as u64) as usize]
}

/// Two digits at a time, from the last.
pub fn put_digits(text: &mut Vec<u8>, mut number: u64) {
    let mut digits = [0; 20];
    let mut at = digits.len();
    while number >= 100 {
        let pair = 2 * (number % 100) as usize;
        number /= 100;
        at -= 2;
        digits[at..at + 2].copy_from_slice(&DIGIT_PAIRS[pair..pair + 2]);
    }
    if number >= 10 {
        let pair = 2 * number as usize;
        at -= 2;
        digits[at..at + 2].copy_from_slice(&DIGIT_PAIRS[pair..pair + 2]);
    } else {
        at -= 1;
        digits[at] = b'0' + number as u8;
    }
    text.extend_from_slice(&digits[at..]);
}

/// By `write!`.
pub fn put_formatted(text: &mut Vec<u8>, number: u64) {
    write!(text, "{number}").expect("a vector takes all");
}

/// Writes what the program `load` writes of a text.
pub fn write_load(
    text: &[u8],
    out: &mut impl Write,
    put: impl Fn(&mut Vec<u8>, u64),
) -> io::Result<()> {
    match read(text) {
        Ok((source, n)) => write_formulas(source, n, out, put),
        Err(refusal) => writeln!(out, "refused {refusal}"),
    }
}

fn write_formulas(
    mut source: Source,
    n: u64,
    out: &mut impl Write,
    put: impl Fn(&mut Vec<u8>, u64),
) -> io::Result<()> {
    let mut ops = [0; FORMULA_TOKENS_MAX];
    let mut operands = [0; FORMULA_TOKENS_MAX];
    let mut text = Vec::with_capacity(BUFFER + LINE_MAX);
    for _ in 0..n {
        let count = source.draw_tokens(&mut ops, &mut operands);
        for (&op, &operand) in ops[..count].iter().zip(&operands) {
            text.push(SIGNS[usize::from(op)]);
            if op < 2 {
                put(&mut text, operand);
            }
            text.push(b' ');
        }
        if let Some(end) = text.last_mut() {
            *end = b'\n';
        }
        if text.len() >= BUFFER {
            out.write_all(&text)?;
            text.clear();
        }
    }
    out.write_all(&text)
}

/// Where the formulas come from and how many are wanted, or the number of a refusal.
fn read(text: &[u8]) -> Result<(Source, u64), u32> {
    let [state, num_vars, width, limit, n] = numbers(text).ok_or(9u32)?;
    let within = |number: u64, most: u64, refusal: u32| {
        let there = (1..=most).contains(&number);
        there.then_some(number as u32).ok_or(refusal)
    };
    let source = Source {
        state,
        num_vars: within(num_vars, 6, 1)?,
        width: within(width, 64, 2)?,
        limit: within(limit, FORMULA_TOKENS_MAX as u64, 6)? as usize,
    };
    Ok((source, n))
}

/// Exactly five unsigned decimals below 2^64, parted by bytes 32, 10 and 13.
fn numbers(text: &[u8]) -> Option<[u64; 5]> {
    let words = text.split(|byte| matches!(byte, b' ' | b'\n' | b'\r'));
    let words = words.filter(|word| !word.is_empty());
    let numbers: Option<Vec<u64>> = words.map(decimal).collect();
    numbers?.try_into().ok()
}

fn decimal(word: &[u8]) -> Option<u64> {
    word.iter().try_fold(0u64, |number, byte| {
        let digit = byte.is_ascii_digit().then(|| u64::from(byte - b'0'))?;
        number.checked_mul(10)?.checked_add(digit)
    })
}

//! The data file probe.txt: words, points, fingerprints and gates on rows.

use crate::access::{self, Row};

use crate::answers::data_file::DataFile;
use crate::inputs::Inputs;
use crate::made::banks::largest;
use crate::spec::gates::{are_reduced, gate_row, gives, residual_row};
use crate::spec::refusals::{NONE, REFUSED_VARS, REFUSED_WIDTH};

const SPLITMIX: u64 = 1;
const POINTS: u64 = 2;
const FINGERPRINT: u64 = 3;
const APPLY: u64 = 4;
const RESIDUAL: u64 = 5;
const MATCHES: u64 = 6;
const BITMASK: u64 = 7;
const INVERSE: u64 = 8;

/// Words of a point, those past the variable count included.
const POINT_WORDS: usize = 6;
const GATES: usize = 5;

const PUBLISHED_SEED: u64 = 1_234_567;
const PUBLISHED_WORDS: [u64; 5] = [
    6_457_827_717_110_365_317,
    3_203_168_211_198_807_973,
    9_817_491_932_198_370_423,
    4_593_380_528_125_082_431,
    16_408_922_859_458_223_821,
];
/// What splitmix64 adds to its state.
const SPLITMIX_STEP: u64 = 0x9E37_79B9_7F4A_7C15;

const POINT_WIDTHS: [u32; 12] = [1, 2, 3, 7, 8, 16, 31, 32, 33, 48, 63, 64];
const GATE_WIDTHS: [u32; 8] = [1, 2, 7, 8, 32, 33, 63, 64];
/// Widths at which words that reach 2^width stand beside others; at 64 none does.
const RAW_WIDTHS: [u32; 4] = [1, 8, 63, 64];
const REFUSED_WIDTHS: [u32; 3] = [0, 65, u32::MAX];
const INVERSE_WIDTHS: [u32; 10] = [1, 2, 3, 8, 16, 31, 32, 33, 63, 64];

/// Places of a row at which a target is made to differ.
const CHANGED_PLACES: [usize; 4] = [0, 1, 7, 15];

const HEAD: [&str; 16] = [
    "Gates: 0 And, 1 Or, 2 Xor, 3 Add, 4 Mul. REFUSAL 0: answered. Any other REFUSAL is the specification's (its least",
    "number that applies) and was not asked of the Rust; the answer beside it is zeros. In kinds 4, 5 and 6 the answer is the",
    "Rust's where all words are below 2^W; for others it is that of 02, 2.3, where every gate and the inverse of Xor reduce",
    "(docs/DIFFERENCES.md, D3).",
    "  1 STATE NEXT WORD              one step of splitmix64: from STATE the next state and the word",
    "  2 NV W REFUSAL P..             make_probe_points(NV, W): 16 points of 6 words, zeros past NV",
    "  3 A.. F                        fingerprint of the row A (16 words)",
    "  4 GATE W REFUSAL A.. B.. R..   gate_apply(A, B) = R, 16 words each",
    "  5 GATE W REFUSAL T.. A.. R..   gate_residual(target T, A) = R, 16 words each",
    "  6 GATE W REFUSAL YES A.. B.. T..   gate_matches(A, B, target T): YES is 1 or 0; 16 words each",
    "  7 W MASK                       bitmask(W)",
    "  8 M K R                        mod_inverse_odd(M, K) = R, of the stand-in that the specification defines",
    "The first five lines of kind 1 are not the Rust's answers but splitmix64's published words from seed 1234567 (the",
    "Rust gives the same, or this file would not have been made). The last lines of kinds 4, 5 and 6 have, at widths 1, 8, 63",
    "and 64, places where a word reaches 2^W in neither row, in the first, in the second, in both; at width 8 the target of",
    "kind 6 keeps the high bits, so that it is no match.",
];

/// The whole file.
pub fn data_file() -> Vec<u8> {
    let mut file = DataFile::with_head(
        "words, points, fingerprints and gates on rows",
        "probe",
        &HEAD,
    );
    published_steps(&mut file);
    splitmix_steps(&mut file);
    points(&mut file);
    refused_points(&mut file);
    fingerprints(&mut file);
    APPLIED.lines(&mut file);
    COMPLETING.lines(&mut file);
    matches(&mut file);
    bitmasks(&mut file);
    inverses(&mut file);
    file.into_bytes()
}

/// The published words, with the states between them; the Rust must give the same.
fn published_steps(file: &mut DataFile) {
    let mut state = PUBLISHED_SEED;
    for word in PUBLISHED_WORDS {
        let next = state.wrapping_add(SPLITMIX_STEP);
        assert_eq!(access::splitmix64(state), (next, word));
        file.line(SPLITMIX, &[&[state, next, word]]);
        state = next;
    }
}

fn splitmix_steps(file: &mut DataFile) {
    let step_to_zero = SPLITMIX_STEP.wrapping_neg();
    let named = [0, 1, u64::MAX, 1 << 63, 0xC0B4A, step_to_zero];
    let mut inputs = Inputs::of_kind(SPLITMIX);
    let random: [u64; 14] = std::array::from_fn(|_| inputs.word());
    for state in named.into_iter().chain(random) {
        let (next, word) = access::splitmix64(state);
        file.line(SPLITMIX, &[&[state, next, word]]);
    }
}

fn points(file: &mut DataFile) {
    for num_vars in 1..=POINT_WORDS as u32 {
        for width in POINT_WIDTHS {
            let padded = padded_points(access::make_probe_points(num_vars, width));
            points_line(file, num_vars, width, NONE, &padded);
        }
    }
}

fn padded_points(points: Vec<Vec<u64>>) -> Vec<u64> {
    let mut words = Vec::new();
    for mut point in points {
        point.resize(POINT_WORDS, 0);
        words.extend(point);
    }
    words
}

fn refused_points(file: &mut DataFile) {
    let vars = [0, 7, 8, u32::MAX].map(|num_vars| (num_vars, 8, REFUSED_VARS));
    let widths = REFUSED_WIDTHS.map(|width| (3, width, REFUSED_WIDTH));
    let both = [(0, 0, REFUSED_VARS), (7, 65, REFUSED_VARS)];
    for (num_vars, width, refusal) in vars.into_iter().chain(widths).chain(both) {
        let zeros = [0; 16 * POINT_WORDS];
        points_line(file, num_vars, width, refusal, &zeros);
    }
}

fn points_line(file: &mut DataFile, num_vars: u32, width: u32, refusal: u64, words: &[u64]) {
    assert_eq!(words.len(), 16 * POINT_WORDS);
    let head = [u64::from(num_vars), u64::from(width), refusal];
    file.line(POINTS, &[&head, words]);
}

fn fingerprints(file: &mut DataFile) {
    for row in named_rows().into_iter().chain(random_rows()) {
        file.line(FINGERPRINT, &[&row, &[access::fingerprint(row)]]);
    }
}

fn named_rows() -> Vec<Row> {
    let ascending: Row = std::array::from_fn(|place| place as u64);
    let alternating: Row = std::array::from_fn(|place| place as u64 % 2);
    let mut rows = vec![[0; 16], [u64::MAX; 16]];
    for place in CHANGED_PLACES {
        for bit in [0, 1, 31, 63] {
            rows.push(with_bit_turned([0; 16], place, bit));
        }
    }
    rows.extend([1, 2, 3, 255].map(|word| [word; 16]));
    rows.extend([ascending, reversed(ascending)]);
    rows.extend([alternating, reversed(alternating)]);
    rows
}

fn random_rows() -> Vec<Row> {
    let mut inputs = Inputs::of_kind(FINGERPRINT);
    [(1, 6), (64, 14), (8, 14)]
        .into_iter()
        .flat_map(|(width, count)| std::iter::repeat_n(width, count))
        .map(|width| inputs.row(width))
        .collect()
}

fn reversed(mut row: Row) -> Row {
    row.reverse();
    row
}

fn with_bit_turned(mut row: Row, place: usize, bit: u32) -> Row {
    row[place] ^= 1 << bit;
    row
}

/// A call that takes two rows and gives one, by the specification and by the Rust.
struct OnRows {
    kind: u64,
    stated: fn(&Row, &Row, usize, u32) -> Row,
    rust: fn(Row, Row, usize, u32) -> Row,
}

impl OnRows {
    /// The specification's answer, which must be the Rust's where all words are below 2^width.
    fn answer(&self, first: Row, second: Row, gate: usize, width: u32) -> Row {
        let answer = (self.stated)(&first, &second, gate, width);
        if are_reduced(&[first, second], width) {
            assert_eq!((self.rust)(first, second, gate, width), answer);
        }
        answer
    }

    fn line(&self, file: &mut DataFile, gate: usize, width: u32, (first, second): (Row, Row)) {
        let result = self.answer(first, second, gate, width);
        let head = gate_head(gate, width, NONE);
        file.line(self.kind, &[&head, &first, &second, &result]);
    }

    fn lines(&self, file: &mut DataFile) {
        let mut inputs = Inputs::of_kind(self.kind);
        for gate in 0..GATES {
            for width in GATE_WIDTHS {
                for rows in row_pairs(&mut inputs, width) {
                    self.line(file, gate, width, rows);
                }
            }
            for width in REFUSED_WIDTHS {
                let (first, second) = (inputs.row(8), inputs.row(8));
                let head = gate_head(gate, width, REFUSED_WIDTH);
                file.line(self.kind, &[&head, &first, &second, &[0; 16]]);
            }
        }
        for (gate, width) in raw_cases() {
            let rows = raw_rows(&mut inputs, width);
            self.line(file, gate, width, rows);
        }
    }
}

const APPLIED: OnRows = OnRows {
    kind: APPLY,
    stated: gate_row,
    rust: access::gate_apply,
};

const COMPLETING: OnRows = OnRows {
    kind: RESIDUAL,
    stated: residual_row,
    rust: access::gate_residual,
};

/// Every gate at every width that words may reach.
fn raw_cases() -> impl Iterator<Item = (usize, u32)> {
    (0..GATES).flat_map(|gate| RAW_WIDTHS.map(|width| (gate, width)))
}

/// Two rows with bits from 2^width up in every second word of the first and in every second two words of the other.
fn raw_rows(inputs: &mut Inputs, width: u32) -> (Row, Row) {
    let mut row = |is_raw: fn(usize) -> bool| -> Row {
        let (low, any) = (inputs.row(width), inputs.row(64));
        let high = |place: usize| any[place] & !largest(width);
        std::array::from_fn(|place| low[place] | if is_raw(place) { high(place) } else { 0 })
    };
    (row(|place| place % 2 == 1), row(|place| place / 2 % 2 == 1))
}

fn gate_head(gate: usize, width: u32, refusal: u64) -> [u64; 3] {
    [gate as u64, u64::from(width), refusal]
}

/// Two rows below 2^width, two rows of any words, and every pair of the words 0, 1, 2^(width - 1), 2^width - 1.
fn row_pairs(inputs: &mut Inputs, width: u32) -> [(Row, Row); 3] {
    let corners = [0, 1, 1 << (width - 1), u64::MAX >> (64 - width)];
    [
        (inputs.row(width), inputs.row(width)),
        (inputs.row(64), inputs.row(64)),
        (
            std::array::from_fn(|place| corners[place / 4]),
            std::array::from_fn(|place| corners[place % 4]),
        ),
    ]
}

fn matches(file: &mut DataFile) {
    let mut inputs = Inputs::of_kind(MATCHES);
    for gate in 0..GATES {
        for width in GATE_WIDTHS {
            true_target(file, &mut inputs, gate, width);
        }
        for width in [1, 8, 33, 64] {
            changed_targets(file, &mut inputs, gate, width);
        }
        for width in [2, 7, 32] {
            targets_of_any_words(file, &mut inputs, gate, width);
        }
        for width in REFUSED_WIDTHS {
            refused_match(file, &mut inputs, gate, width);
        }
    }
    for (gate, width) in raw_cases() {
        let (a, b) = raw_rows(&mut inputs, width);
        let kept = if width == 8 { 64 } else { width };
        let target = gate_row(&a, &b, gate, kept);
        match_line(file, gate, width, (a, b, target), kept == width);
    }
}

/// Rows below 2^width with the target that their gate gives.
fn true_target(file: &mut DataFile, inputs: &mut Inputs, gate: usize, width: u32) {
    let (a, b) = (inputs.row(width), inputs.row(width));
    let target = gate_row(&a, &b, gate, width);
    match_line(file, gate, width, (a, b, target), true);
}

/// Rows below 2^width with a target that is wrong in one bit below the width, at one place.
fn changed_targets(file: &mut DataFile, inputs: &mut Inputs, gate: usize, width: u32) {
    for place in CHANGED_PLACES {
        let (a, b) = (inputs.row(width), inputs.row(width));
        let target = gate_row(&a, &b, gate, width);
        let bit = (inputs.word() % u64::from(width)) as u32;
        let changed = with_bit_turned(target, place, bit);
        match_line(file, gate, width, (a, b, changed), false);
    }
}

/// Rows of any words: with the target that their gate gives, then with one that is wrong only above the width.
fn targets_of_any_words(file: &mut DataFile, inputs: &mut Inputs, gate: usize, width: u32) {
    let (a, b) = (inputs.row(64), inputs.row(64));
    let target = gate_row(&a, &b, gate, width);
    match_line(file, gate, width, (a, b, target), true);
    let place = CHANGED_PLACES[gate % CHANGED_PLACES.len()];
    let changed = with_bit_turned(target, place, 63);
    match_line(file, gate, width, (a, b, changed), false);
}

/// A line with `yes` as expected; the Rust must say the same where all words are below 2^width.
fn match_line(file: &mut DataFile, gate: usize, width: u32, rows: (Row, Row, Row), yes: bool) {
    let (a, b, target) = rows;
    assert_eq!(gives(&a, &b, &target, gate, width), yes);
    if are_reduced(&[a, b, target], width) {
        assert_eq!(access::gate_matches(a, b, target, gate, width), yes);
    }
    let head = gate_head(gate, width, NONE);
    file.line(MATCHES, &[&head, &[u64::from(yes)], &a, &b, &target]);
}

/// A refused width, with the target that the gate gives at width 64.
fn refused_match(file: &mut DataFile, inputs: &mut Inputs, gate: usize, width: u32) {
    let (a, b) = (inputs.row(8), inputs.row(8));
    let target = gate_row(&a, &b, gate, 64);
    let head = gate_head(gate, width, REFUSED_WIDTH);
    file.line(MATCHES, &[&head, &[0], &a, &b, &target]);
}

fn bitmasks(file: &mut DataFile) {
    for width in (0..=70).chain([100, u32::MAX]) {
        file.line(BITMASK, &[&[u64::from(width), access::bitmask(width)]]);
    }
}

fn inverses(file: &mut DataFile) {
    let mut inputs = Inputs::of_kind(INVERSE);
    for k in INVERSE_WIDTHS {
        let below = inputs.word() >> (64 - k);
        for m in [1, u64::MAX, inputs.word() | 1, below | 1] {
            inverse_line(file, m, k);
        }
    }
}

fn inverse_line(file: &mut DataFile, m: u64, k: u32) {
    let inverse = access::mod_inverse_odd(m, k);
    let below = u128::from(inverse) < 1 << k;
    let product = u128::from(m) * u128::from(inverse) % (1 << k);
    assert!(below && product == 1);
    file.line(INVERSE, &[&[m, u64::from(k), inverse]]);
}

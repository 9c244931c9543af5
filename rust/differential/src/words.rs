//! Points, fingerprints, masks, sums, inverses, gates on rows and residuals.

use std::fmt::Debug;

use oracle::access::{self, Row};
use oracle::inputs::Inputs;
use oracle::made::formulas::corners;
use oracle::made::rows::{near, raised};
use oracle::spec::gates as spec;
use simjaldek::lent;

use crate::any_width;
use crate::buffers::longer;
use crate::report::{Kind, Report};

/// Two rows for the gates, so many times.
const ROWS: usize = 3;

/// Each call once; the gates all five.
pub fn compare(inputs: &mut Inputs, report: &mut Report) {
    points(inputs, report);
    fingerprint(inputs, report);
    let width = inputs.below(70) as u32;
    let mask = access::bitmask(width);
    report.compare(Kind::Bitmask, &width, &lent::bitmask(width), &mask);
    sums(inputs, report);
    draws(inputs, report);
    for _ in 0..ROWS {
        let width = any_width(inputs);
        let [a, b] = [random_row(inputs, width), random_row(inputs, width)];
        let reduced = [a, b].map(|row| spec::are_reduced(&[row], width));
        report.reach("gates: words from 2^w in both rows", reduced == [false; 2]);
        report.reach("gates: words from 2^w in one row", reduced[0] != reduced[1]);
        for gate in 0..5 {
            Gated { a, b, gate, width }.compare(inputs, report);
        }
    }
}

/// Sums modulo 2^w, and the inverse of an odd word.
fn sums(inputs: &mut Inputs, report: &mut Report) {
    let width = inputs.below(70) as u32;
    let any = corners(width.clamp(1, 64));
    let [a, b] = [0; 2].map(|_| match inputs.below(2) {
        0 => inputs.one_of(&any),
        _ => inputs.word(),
    });
    let ours = [
        lent::mod_add(a, b, width),
        lent::mod_sub(a, b, width),
        lent::mod_mul(a, b, width),
        lent::mod_neg(a, width),
        lent::mod_not(a, width),
    ];
    let theirs = access::sums(a, b, width);
    report.compare(Kind::Sums, &(a, b, width), &ours, &theirs);
    let ours = (lent::reduce(a, width), lent::wrapping_mul(a, b));
    let theirs = (a & access::bitmask(width), a.wrapping_mul(b));
    report.compare(Kind::Sums, &(a, b, width), &ours, &theirs);
    let (odd, bits) = (a | 1, any_width(inputs));
    let ours = lent::mod_inverse_odd(odd, bits);
    let theirs = access::mod_inverse_odd(odd, bits);
    report.compare(Kind::Inverse, &(odd, bits), &ours, &theirs);
}

fn draws(inputs: &mut Inputs, report: &mut Report) {
    let state = inputs.word();
    let ours = lent::splitmix64(state);
    report.compare(Kind::Splitmix, &state, &ours, &access::splitmix64(state));
}

fn points(inputs: &mut Inputs, report: &mut Report) {
    let (num_vars, width) = (1 + inputs.below(6) as u32, any_width(inputs));
    let points = access::make_probe_points(num_vars, width);
    let padded = |place: usize| -> [u64; 6] {
        let word = |variable| points[place].get(variable).copied().unwrap_or(0);
        std::array::from_fn(word)
    };
    let ours = lent::probe_points(num_vars, width);
    let theirs = Ok(std::array::from_fn(padded));
    report.compare(Kind::Points, &(num_vars, width), &ours, &theirs);
}

fn fingerprint(inputs: &mut Inputs, report: &mut Report) {
    let width = any_width(inputs);
    let row = random_row(inputs, width);
    let ours = lent::fingerprint(&longer(inputs, &row));
    report.compare(
        Kind::Fingerprint,
        &row,
        &ours,
        &Ok(access::fingerprint(row)),
    );
}

/// Words below 2^width, corners, words of which one or all reach 2^width, or any words.
fn random_row(inputs: &mut Inputs, width: u32) -> Row {
    let row = inputs.row(width);
    match inputs.below(8) {
        0 | 1 => inputs.row(64),
        2 | 3 => raised(inputs, row, width),
        4 => std::array::from_fn(|_| inputs.one_of(&corners(width))),
        _ => row,
    }
}

/// Two rows, a gate and the width.
#[derive(Clone, Copy, Debug)]
struct Gated {
    a: Row,
    b: Row,
    gate: u32,
    width: u32,
}

impl Gated {
    /// A gate, what completes a row to another, and whether the gate gives a target.
    fn compare(self, inputs: &mut Inputs, report: &mut Report) {
        self.apply(inputs, report);
        self.residual(inputs, report);
        let target = self.target(inputs);
        self.matches(inputs, report, target);
    }

    fn apply(self, inputs: &mut Inputs, report: &mut Report) {
        let Gated { a, b, gate, width } = self;
        let (lent_a, lent_b) = (longer(inputs, &a), longer(inputs, &b));
        let ours = lent::gate_apply(&lent_a, &lent_b, gate, width);
        let rust = || Ok(access::gate_apply(a, b, gate as usize, width));
        let rust = self.is_reduced().then(rust);
        let kinds = [Kind::PlainGate, Kind::Gate];
        beside(report, kinds, &self, &ours, &Ok(self.given()), rust);
    }

    fn residual(self, inputs: &mut Inputs, report: &mut Report) {
        let Gated { a, b, gate, width } = self;
        let (lent_a, lent_b) = (longer(inputs, &a), longer(inputs, &b));
        let ours = lent::gate_residual(&lent_a, &lent_b, gate, width);
        let expected = spec::residual_row(&a, &b, gate as usize, width);
        let rust = || Ok(access::gate_residual(a, b, gate as usize, width));
        let rust = self.is_reduced().then(rust);
        let kinds = [Kind::PlainResidual, Kind::Residual];
        beside(report, kinds, &self, &ours, &Ok(expected), rust);
    }

    fn matches(self, inputs: &mut Inputs, report: &mut Report, target: Row) {
        let Gated { a, b, gate, width } = self;
        let (lent_a, lent_b) = (longer(inputs, &a), longer(inputs, &b));
        let lent_target = longer(inputs, &target);
        let ours = lent::gate_matches(&lent_a, &lent_b, &lent_target, gate, width);
        let expected = spec::gives(&a, &b, &target, gate as usize, width);
        let target_reduced = spec::are_reduced(&[target], width);
        let rust = || Ok(access::gate_matches(a, b, target, gate as usize, width));
        let rust = (self.is_reduced() && target_reduced).then(rust);
        let kinds = [Kind::PlainMatch, Kind::Match];
        beside(report, kinds, &(self, target), &ours, &Ok(expected), rust);
        let over_raw = expected && !self.is_reduced();
        report.reach("matches: rows with words from 2^w", over_raw);
        report.reach("no matches: a target with words from 2^w", !target_reduced);
    }

    fn given(self) -> Row {
        spec::gate_row(&self.a, &self.b, self.gate as usize, self.width)
    }

    /// Whether all words of both rows are below 2^width.
    fn is_reduced(self) -> bool {
        spec::are_reduced(&[self.a, self.b], self.width)
    }

    /// What the gate gives; that with a bit changed below 2^width, or set from there up; what it would give with high bits left in place;
    /// a row.
    fn target(self, inputs: &mut Inputs) -> Row {
        let given = self.given();
        match inputs.below(8) {
            0 => near(inputs, given, self.width),
            1 => raised(inputs, given, self.width),
            2 => Gated { width: 64, ..self }.given(),
            3 => inputs.one_of(&[self.a, self.b]),
            _ => given,
        }
    }
}

/// One result beside the plain statement's and, where all words are below 2^width, beside the Rust's.
fn beside<T: PartialEq + Debug>(
    report: &mut Report,
    [plain, original]: [Kind; 2],
    input: &impl Debug,
    ours: &T,
    expected: &T,
    rust: Option<T>,
) {
    report.compare(plain, input, ours, expected);
    if let Some(rust) = rust {
        report.compare(original, input, ours, &rust);
    }
}

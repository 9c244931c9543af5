//! Candidates and the residual search.

use oracle::inputs::Inputs;
use oracle::spec::bank::ATOMS_MAX;
use oracle::spec::index::PAIRS_MAX;
use oracle::spec::lent as spec;
use oracle::spec::product::order_list;
use oracle::spec::refusals::{least, NONE, REFUSED_LENGTH, REFUSED_WIDTH};
use simjaldek::lent::{self, Atoms, PairRows, Pairs};

use super::{claimed, cut, damages, length, number, padded, reach, row_words, widths};
use crate::buffers::{garbage_u32, garbage_u64};
use crate::report::{Kind, Report};
use crate::residuals::ask;

/// Pairs as they are lent.
struct Lent {
    count: usize,
    rows: Vec<u64>,
    order: Vec<u32>,
}

impl Lent {
    /// A few pairs with their order list, damaged here and there; seldom more pairs than there can be.
    fn new(inputs: &mut Inputs, width: u32) -> Self {
        if inputs.below(64) == 0 {
            return Self::too_many();
        }
        let count = inputs.below(7) as usize;
        let mut rows: Vec<u64> = (0..16 * count)
            .map(|_| inputs.word_of_width(width))
            .collect();
        let first_words: Vec<u64> = rows.chunks(16).map(|row| row[0]).collect();
        let slots = order_list(&first_words).into_iter();
        let mut order: Vec<u32> = slots.map(|slot| slot as u32).collect();
        if damages(inputs) {
            damage(inputs, &mut order);
        }
        cut(inputs, &mut rows);
        cut(inputs, &mut order);
        Lent {
            count: claimed(inputs, count),
            rows,
            order,
        }
    }

    fn too_many() -> Self {
        let count = PAIRS_MAX as usize + 1;
        Lent {
            count,
            rows: vec![0; 16 * count],
            order: (0..count as u32).collect(),
        }
    }

    fn pairs(&self) -> Pairs<'_> {
        Pairs {
            count: self.count,
            rows: &self.rows,
            order: &self.order,
        }
    }

    fn handed(&self) -> spec::Pairs {
        spec::Pairs {
            count: self.count as u64,
            rows: self.rows.len() as u64,
            first_words: self.rows.chunks_exact(16).map(|row| row[0]).collect(),
            order: self.order.iter().copied().map(u64::from).collect(),
        }
    }

    /// The input as it is told: all of it but for the rows' words past the first.
    fn told(&self) -> (usize, usize, Vec<u64>, &[u32]) {
        let shown = self.order.len().min(10);
        let first_words = self.rows.chunks(16).take(10).map(|row| row[0]);
        (
            self.count,
            self.rows.len(),
            first_words.collect(),
            &self.order[..shown],
        )
    }
}

/// Two entries change places, one is written over another, or one is any number.
pub fn damage(inputs: &mut Inputs, order: &mut [u32]) {
    if order.is_empty() {
        return;
    }
    let [i, j] = [0; 2].map(|_| inputs.below(order.len() as u64) as usize);
    match inputs.below(4) {
        0 => order[i] = order[j],
        1 => order[i] = inputs.one_of(&[order.len() as u32, u32::MAX]),
        _ => order.swap(i, j),
    }
}

pub fn candidates(inputs: &mut Inputs, report: &mut Report) {
    let (good, width) = widths(inputs);
    let lent = Lent::new(inputs, good);
    let mut words = [inputs.word_of_width(good), inputs.word_of_width(good)];
    if damages(inputs) {
        reach(inputs, &mut words, good);
    }
    let [p, t] = words;
    let places = length(inputs, lent.order.len() as u64);
    let mut list = garbage_u32(inputs, places as usize);
    let before = list.clone();
    let refused = number(lent::candidates(width, lent.pairs(), p, t, &mut list));
    let handed = spec::Candidates {
        width: width.into(),
        pairs: lent.handed(),
        p,
        t,
        list: places,
    };
    let ours = (refused, refused == NONE || list == before);
    let input = (width, lent.told(), p, t, places);
    report.refusal(Kind::RefusedCandidates, &input, ours, handed.refusal());
}

pub fn residual(inputs: &mut Inputs, report: &mut Report) {
    let (good, width) = widths(inputs);
    let lent = Lent::new(inputs, good);
    let (count, rows) = atoms(inputs);
    let target = row_words(inputs, good);
    let lent_atoms = Atoms { count, rows: &rows };
    let pair_rows = PairRows {
        count: lent.count,
        rows: &lent.rows,
    };
    let refused = number(ask(width, lent_atoms, pair_rows, &target));
    let handed = spec::ResidualSearch {
        width: width.into(),
        count: count as u64,
        atoms: rows.len() as u64,
        pairs: lent.count as u64,
        listed: lent.rows.len() as u64,
        target: padded(&target),
    };
    let expected = with_target(&target, width, handed.refusal());
    let input = (width, count, rows.len(), lent.told(), target);
    report.refusal(Kind::RefusedResidual, &input, (refused, true), expected);
}

/// A few atoms, now and then more than there can be: how many are claimed, and their rows.
fn atoms(inputs: &mut Inputs) -> (usize, Vec<u64>) {
    let any = inputs.below(5) as usize;
    let atoms = inputs.one_of(&[any, any, any, any, any, ATOMS_MAX + 1]);
    let mut rows = garbage_u64(inputs, 16 * atoms);
    cut(inputs, &mut rows);
    (claimed(inputs, atoms), rows)
}

/// A search's refusal where the target is long enough.
pub fn with_target(target: &[u64], width: u32, refusal: u64) -> u64 {
    if target.len() < 16 {
        short_target(width)
    } else {
        refusal
    }
}

/// A target that is too short: 4, unless the width is refused.
fn short_target(width: u32) -> u64 {
    let of_width = if (1..=64).contains(&width) {
        NONE
    } else {
        REFUSED_WIDTH
    };
    least(of_width, REFUSED_LENGTH)
}

//! Indexes: pairs, rows, order list and the mark "cut", with limits around the number of all pairs. Over banks below 2^w they stand beside
//! the Rust's, over others, where the Rust's gates leave high bits in place, beside the plain statement's.

use oracle::access::{AtomView, IndexView, Row};
use oracle::inputs::Inputs;
use oracle::made::indexes;
use oracle::made::lent::any_atom;
use oracle::made::rows::{few_rows, raised};
use oracle::spec::gates::are_reduced;
use oracle::spec::index as spec;
use simjaldek::lent::{self, Atoms, Built};
use simjaldek::{ATOMS_MAX, PAIRS_MAX};

use crate::any_width;
use crate::buffers::{extra, flat, IndexBuffers};
use crate::report::{Kind, Report};
use crate::residuals;
use crate::searches::Lent;

/// The listing program's largest limit.
const SMALL_LIMIT: usize = 500;
/// Indexes of more pairs are asked for with fewer limits.
const MANY_PAIRS: usize = 4000;

/// The most atoms of a bank that no build made.
const MADE_ATOMS: usize = 7;

/// A bank with its whole index, and the width of the index.
pub struct Setting {
    atoms: Vec<AtomView>,
    rows: Vec<Row>,
    index: IndexView,
    width: u32,
}

impl Setting {
    pub fn new(atoms: Vec<AtomView>, width: u32) -> Self {
        let rows: Vec<Row> = atoms.iter().map(|atom| atom.row).collect();
        let index = indexes::index(&rows, width, PAIRS_MAX);
        Self {
            atoms,
            rows,
            index,
            width,
        }
    }

    /// Over a few atoms that no build made; every other time with words from 2^width up, or with any words.
    pub fn made(inputs: &mut Inputs) -> Self {
        let width = any_width(inputs);
        let mut rows = few_rows(inputs, width);
        rows.truncate(inputs.below(MADE_ATOMS as u64 + 1) as usize);
        match inputs.below(4) {
            0 => rows.iter_mut().for_each(|row| *row = inputs.row(64)),
            1 => rows
                .iter_mut()
                .step_by(2)
                .for_each(|row| *row = raised(inputs, *row, width)),
            _ => {}
        }
        let atom = |row| any_atom(inputs, row, width);
        Self::new(rows.into_iter().map(atom).collect(), width)
    }

    /// A width for a search: mostly that of the index, else a lesser one, so that pairs may have words that reach it.
    pub fn search_width(&self, inputs: &mut Inputs) -> u32 {
        match inputs.below(4) {
            0 => 1 + inputs.below(u64::from(self.width)) as u32,
            _ => self.width,
        }
    }

    /// One of the limits.
    pub fn limit(&self, inputs: &mut Inputs) -> usize {
        let limits = self.limits(inputs);
        inputs.one_of(&limits)
    }

    /// Compares the index at several limits, and gives one of them.
    pub fn compare(&self, inputs: &mut Inputs, report: &mut Report) -> usize {
        let limits = self.limits(inputs);
        for &limit in &limits {
            self.compare_at(inputs, report, limit);
        }
        inputs.one_of(&limits)
    }

    /// 0, 1, the full number, one less, one more, 500 and any; for a large index a small limit and, now and then, a large one.
    fn limits(&self, inputs: &mut Inputs) -> Vec<usize> {
        let all = self.index.all;
        let any = inputs.below(all as u64 + 1) as usize;
        let around = [all.saturating_sub(1), all, (all + 1).min(PAIRS_MAX)];
        let small = [0, 1, SMALL_LIMIT];
        if all <= MANY_PAIRS {
            return [&small[..], &around, &[any]].concat();
        }
        let mut limits = vec![SMALL_LIMIT, inputs.one_of(&small)];
        if inputs.below(4) == 0 {
            let large = inputs.one_of(&around);
            limits.push(inputs.one_of(&[any, large, large]));
        }
        limits
    }

    fn compare_at(&self, inputs: &mut Inputs, report: &mut Report, limit: usize) {
        let needed = [3 * limit, 16 * limit, limit, 4 * (limit + ATOMS_MAX)];
        let lengths = needed.map(|length| length + extra(inputs));
        let mut buffers = IndexBuffers::new(inputs, lengths);
        let mut expected = buffers.clone();
        let rows = flat(inputs, &self.rows);
        let atoms = Atoms {
            count: self.rows.len(),
            rows: &rows,
        };
        let built = lent::build_index(self.width, atoms, limit, buffers.lend());
        let count = limit.min(self.index.all);
        let (pairs, rows) = (&self.index.pairs[..count], &self.index.rows[..count]);
        expected.write(pairs, rows, &self.order(count));
        expected.work.clone_from(&buffers.work);
        let cut = self.is_cut(limit);
        let theirs = (Ok(Built { pairs: count, cut }), expected);
        report.reach("indexes that are cut", cut);
        report.reach("indexes of 262,144 pairs", count == PAIRS_MAX);
        let input = (self.width, limit, &self.rows);
        let kind = if are_reduced(&self.rows, self.width) {
            Kind::Index
        } else {
            Kind::PlainIndex
        };
        report.compare(kind, &input, &(built, buffers), &theirs);
    }

    /// The order list, slots from `count` upward left out.
    fn order(&self, count: usize) -> Vec<usize> {
        let order = self.index.order.iter().copied();
        order.filter(|&slot| slot < count).collect()
    }

    /// Whether there are more pairs than the limit. Where the Rust lists as many as it can, only the plain statement tells.
    fn is_cut(&self, limit: usize) -> bool {
        if limit == PAIRS_MAX && self.index.all == PAIRS_MAX {
            return spec::index(&self.rows, self.width, limit).cut;
        }
        self.index.all > limit
    }

    /// The bank with the first pairs of the index, for searches at a width.
    pub fn lent(&self, limit: usize, width: u32) -> Lent {
        let count = limit.min(self.index.all);
        let index = IndexView {
            pairs: self.index.pairs[..count].to_vec(),
            rows: self.index.rows[..count].to_vec(),
            order: self.order(count),
            all: count,
        };
        Lent {
            atoms: self.atoms.clone(),
            index,
            width,
        }
    }

    /// The same for residual searches.
    pub fn lent_rows(&self, limit: usize, width: u32) -> residuals::Lent {
        let count = limit.min(self.index.all);
        residuals::Lent {
            atoms: self.rows.clone(),
            pairs: self.index.rows[..count].to_vec(),
            width,
            whole: width == self.width && !self.is_cut(limit),
        }
    }
}

//! The bank: the originals' pool of atoms.

use std::collections::HashSet;

use super::super::{populate, probe, push, Atom, ProbeVals, ValMap};
use super::formulas::{cost_numbers, expr_of, formula_of};
use super::{Cost, Formula, Row};
use crate::core::expr::Expr;
use crate::core::expr_cost::ExprCost;

/// One atom.
#[derive(Clone, Debug, PartialEq, Eq)]
pub struct AtomView {
    pub formula: Formula,
    pub cost: Cost,
    pub row: Row,
}

/// The originals' pool and its map as they are, for callers that time the originals.
pub struct Pool {
    pub(super) atoms: Vec<Atom>,
    pub(super) vmap: ValMap,
}

impl Pool {
    /// `populate` over sixteen points, then the seeds that `try_template_decomposition` adds for the target row.
    pub fn build(num_vars: u32, width: u32, points: &[Vec<u64>], target: Row) -> Self {
        let mut atoms: Vec<Atom> = Vec::new();
        let mut vmap = ValMap::default();
        populate(&mut atoms, &mut vmap, num_vars, points, width);
        seed(&mut atoms, &mut vmap, points, width, target);
        Self { atoms, vmap }
    }

    /// The atoms, in slot order.
    pub fn views(&self) -> Vec<AtomView> {
        self.atoms.iter().map(view).collect()
    }
}

/// The atoms of `Pool::build`.
pub fn bank(num_vars: u32, width: u32, points: &[Vec<u64>], target: Row) -> Vec<AtomView> {
    Pool::build(num_vars, width, points, target).views()
}

/// The seeding of `try_template_decomposition`, line by line.
fn seed(pool: &mut Vec<Atom>, vmap: &mut ValMap, pts: &[Vec<u64>], bitwidth: u32, target: Row) {
    let mut or_fold = 0u64;
    for &value in &target {
        or_fold |= value;
    }
    let mut seeded_vals = HashSet::new();
    let mut seed_const = |value: u64| {
        if value == 0 || !seeded_vals.insert(value) {
            return;
        }
        let expr = Expr::constant(value);
        let vals = probe(&expr, pts, bitwidth);
        push(pool, vmap, expr, vals);
    };
    seed_const(or_fold);
    let mut seeded = 0u32;
    for &value in &target {
        if value != 0 {
            seed_const(value);
            seeded += 1;
            if seeded == 7 {
                break;
            }
        }
    }
}

fn view(atom: &Atom) -> AtomView {
    AtomView {
        formula: formula_of(&atom.expr),
        cost: cost_numbers(atom.cost),
        row: atom.vals.0,
    }
}

/// The originals' pool that an `AtomView` list shows.
pub(super) fn pool_of(atoms: &[AtomView]) -> Vec<Atom> {
    atoms.iter().map(atom_of).collect()
}

fn atom_of(view: &AtomView) -> Atom {
    let [weighted_size, nonlinear_mul_count, max_depth] = view.cost;
    Atom {
        expr: expr_of(&view.formula),
        vals: ProbeVals(view.row),
        cost: ExprCost {
            weighted_size,
            nonlinear_mul_count,
            max_depth,
        },
    }
}

/// A pool of which only the rows are read.
pub(super) fn pool_of_rows(rows: &[Row]) -> Vec<Atom> {
    let atom = |row: &Row| Atom {
        expr: Expr::constant(0),
        vals: ProbeVals(*row),
        cost: ExprCost::default(),
    };
    rows.iter().map(atom).collect()
}

/// The map from rows to slots that the originals keep beside a pool.
pub(super) fn map_of(pool: &[Atom]) -> ValMap {
    let mut vmap = ValMap::default();
    for (slot, atom) in pool.iter().enumerate() {
        vmap.insert(&atom.vals, slot);
    }
    vmap
}

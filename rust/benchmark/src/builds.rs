//! The bank build and the index build. Ours write to lent arrays that are made before; the Rust's allocate what they make, and its
//! dropping isn't timed.

use std::hint::black_box;

use oracle::access::{Inner, Pool};
use simjaldek::{ATOM_TOKENS, PAIRS_MAX};

use crate::measure::{alternate, apart, together, Plan, Times};
use crate::{Call, Setting};

/// Times both builds.
pub fn time(plan: &Plan, setting: &mut Setting, take: &mut impl FnMut(Call, String, Times)) {
    check(setting);
    let atoms = setting.ours.atoms;
    take(
        Call::Bank,
        format!("{atoms} atoms"),
        time_bank(plan, setting),
    );
    let pairs = setting.ours.built.pairs;
    let cut = if setting.ours.built.cut { ", cut" } else { "" };
    take(
        Call::Index,
        format!("{pairs} pairs{cut}"),
        time_index(plan, setting),
    );
}

fn time_bank(plan: &Plan, setting: &mut Setting) -> Times {
    let Setting {
        num_vars,
        width,
        points,
        target,
        ours,
        ..
    } = setting;
    let mut ours = together(|| ours.build_bank(black_box(*num_vars), *width, target));
    let mut rust = apart(|| Pool::build(black_box(*num_vars), *width, points, *target));
    alternate(plan, &mut ours, &mut rust)
}

fn time_index(plan: &Plan, setting: &mut Setting) -> Times {
    let Setting {
        width, pool, ours, ..
    } = setting;
    let mut ours = together(|| ours.build_index(black_box(*width)));
    let mut rust = apart(|| Inner::build(pool, black_box(*width)));
    alternate(plan, &mut ours, &mut rust)
}

/// Both sides have one bank and one index.
pub fn check(setting: &Setting) {
    check_bank(setting);
    check_index(setting);
}

fn check_bank(setting: &Setting) {
    let bank = &setting.ours.bank;
    let atoms = setting.pool.views();
    assert_eq!(setting.ours.atoms, atoms.len());
    for (slot, atom) in atoms.iter().enumerate() {
        let length = bank.lengths[slot] as usize;
        let from = ATOM_TOKENS * slot;
        assert_eq!(bank.ops[from..from + length], atom.formula.ops);
        assert_eq!(bank.operands[from..from + length], atom.formula.operands);
        assert_eq!(bank.costs[3 * slot..3 * slot + 3], atom.cost);
        assert_eq!(setting.ours.atom_row(slot), atom.row);
    }
}

fn check_index(setting: &Setting) {
    let index = &setting.ours.index;
    let view = setting.inner.view(PAIRS_MAX);
    let count = view.pairs.len();
    assert_eq!(setting.ours.built.pairs, count);
    let pairs = view
        .pairs
        .as_flattened()
        .iter()
        .map(|&number| number as u32);
    assert!(pairs.eq(index.pairs[..3 * count].iter().copied()));
    assert_eq!(view.rows.as_flattened(), &index.rows[..16 * count]);
    let order = view.order.iter().map(|&slot| slot as u32);
    assert!(order.eq(index.order[..count].iter().copied()));
}

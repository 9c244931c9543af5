//! Random banks and indexes of one width throughout, where no difference is expected.

use crate::access::{self, AtomView, Formula, Row};

use super::{Setting, PAIRS_MAX};
use crate::inputs::Inputs;
use crate::spec::formulas::{self as spec, GATE_OPS, MUL, VARIABLE};
use crate::spec::product;

/// The generator's number; no kind of line has it.
const GENERATOR: u64 = 1000;
const SMALL_BANKS: usize = 1200;
const LARGE_BANKS: usize = 24;
const LARGE_LIMIT: usize = 500;
const TARGETS: usize = 24;

#[derive(Default)]
struct Tally {
    banks: usize,
    atoms: usize,
    pairs: usize,
    searches: usize,
    found: usize,
    candidates: usize,
    first_stages: usize,
    least: usize,
    layer1: usize,
    layer2: usize,
}

pub fn print() {
    let mut inputs = Inputs::of_kind(GENERATOR);
    let mut tally = Tally::default();
    for _ in 0..SMALL_BANKS {
        let num_vars = inputs.one_of(&[1, 1, 1, 2, 2, 3]);
        let limit = inputs.one_of(&[PAIRS_MAX, PAIRS_MAX, 500, 60, 7]);
        compare(&mut inputs, &mut tally, num_vars, limit);
    }
    for turn in 0..LARGE_BANKS {
        compare(&mut inputs, &mut tally, 4 + turn as u32 % 3, LARGE_LIMIT);
    }
    println!(
        "One width throughout: {} banks of 1 to 6 variables with {} atoms, each row and cost as its formula says; {} pairs, \
         each row its gate's, order list as defined",
        tally.banks, tally.atoms, tally.pairs
    );
    println!(
        "  {} product loops find the first atom and pair that fit ({} found something); {} lists of candidates; {} first stages keep the \
         cheapest two atoms; {} times both, each to its end, the cheapest product",
        tally.searches, tally.found, tally.candidates, tally.first_stages, tally.least
    );
    println!(
        "  the original layers 1 and 2 themselves: {} and {} answers that are products or nothing, all as two_atoms and \
         product_loop say",
        tally.layer1, tally.layer2
    );
}

fn compare(inputs: &mut Inputs, tally: &mut Tally, num_vars: u32, limit: usize) {
    let width = match inputs.below(3) {
        0 => 1 + inputs.below(4) as u32,
        1 => 1 + inputs.below(12) as u32,
        _ => 1 + inputs.below(64) as u32,
    };
    let points = random_points(inputs, num_vars, width);
    let bank_target = random_row(inputs, width);
    let atoms = access::bank(num_vars, width, &points, bank_target);
    check_atoms(&atoms, &points, width);
    let setting = Setting::new(atoms, limit, width);
    check_index(&setting);
    tally.banks += 1;
    tally.atoms += setting.rows.len();
    tally.pairs += setting.index.rows.len();
    for _ in 0..TARGETS {
        let target = random_target(inputs, &setting);
        check_second_stage(tally, &setting, target);
        check_first_stage(tally, &setting, target);
        check_least(tally, &setting, target);
        check_candidates(tally, inputs, &setting, target[0]);
    }
}

/// Points of any words, of few words, all equal, of 0 and 1, or those of the Rust.
fn random_points(inputs: &mut Inputs, num_vars: u32, width: u32) -> Vec<Vec<u64>> {
    let style = inputs.below(5);
    let point = |inputs: &mut Inputs, width| -> Vec<u64> {
        (0..num_vars).map(|_| inputs.word_of_width(width)).collect()
    };
    match style {
        0 => access::make_probe_points(num_vars, width),
        1 => vec![point(inputs, width); 16],
        2 => (0..16).map(|_| point(inputs, width.min(2))).collect(),
        3 => (0..16).map(|_| point(inputs, 1)).collect(),
        _ => (0..16).map(|_| point(inputs, width)).collect(),
    }
}

/// A row of any words, of one word, of few, or zero.
fn random_row(inputs: &mut Inputs, width: u32) -> Row {
    match inputs.below(4) {
        0 => [0; 16],
        1 => [inputs.word_of_width(width); 16],
        2 => inputs.row(width.min(3)),
        _ => inputs.row(width),
    }
}

/// Mostly a product of an atom and a pair, sometimes with one word changed; else two atoms' product or any row.
fn random_target(inputs: &mut Inputs, setting: &Setting) -> Row {
    let width = setting.width;
    let atom = inputs.one_of(&setting.rows);
    if setting.index.rows.is_empty() || inputs.below(8) == 0 {
        let other = inputs.one_of(&setting.rows);
        return product::product(&atom, &other, width);
    }
    if inputs.below(8) == 0 {
        return random_row(inputs, width);
    }
    let pair = inputs.one_of(&setting.index.rows);
    let mut target = product::product(&atom, &pair, width);
    if inputs.below(4) == 0 {
        let place = inputs.below(16) as usize;
        target[place] = inputs.word_of_width(width);
    }
    target
}

/// Each atom's row is its formula's at the points, its cost its formula's, and no two share a row.
fn check_atoms(atoms: &[AtomView], points: &[Vec<u64>], width: u32) {
    assert!(atoms.len() <= 479);
    for (slot, atom) in atoms.iter().enumerate() {
        let value = |place: usize| spec::value(&atom.formula, width, &points[place]);
        assert_eq!(atom.row, std::array::from_fn(value));
        assert_eq!(atom.cost, spec::cost(&atom.formula));
        assert!(atom.cost[0] <= 6 && atom.formula.ops.len() <= 6);
        assert!(atoms[..slot].iter().all(|other| other.row != atom.row));
    }
}

/// Each pair's row is its gate's, and the order list is the one defined.
fn check_index(setting: &Setting) {
    let index = &setting.index;
    for (&[gate, b, c], row) in index.pairs.iter().zip(&index.rows) {
        assert!(b <= c && c < setting.rows.len());
        let formula = Formula {
            ops: vec![VARIABLE, VARIABLE, GATE_OPS[gate]],
            operands: vec![0, 1, 0],
        };
        let value = |place: usize| {
            let words = [setting.rows[b][place], setting.rows[c][place]];
            spec::value(&formula, setting.width, &words)
        };
        assert_eq!(*row, std::array::from_fn(value));
    }
    assert_eq!(index.order, product::order_list(&first_words(&index.rows)));
}

fn first_words(rows: &[Row]) -> Vec<u64> {
    rows.iter().map(|row| row[0]).collect()
}

fn check_second_stage(tally: &mut Tally, setting: &Setting, target: Row) {
    let written = setting.written();
    let found = setting.product_loop(target);
    assert_eq!(found, written.first_pair(&target));
    tally.searches += 1;
    tally.found += usize::from(found.is_some());
    let whole = access::layer2(target, &setting.atoms, &setting.index, setting.width);
    if is_product_or_none(&whole) {
        assert_eq!(whole, found.map(|trial| written.written_out(trial)));
        tally.layer2 += 1;
    }
}

fn check_first_stage(tally: &mut Tally, setting: &Setting, target: Row) {
    let written = setting.written();
    let chosen = setting.two_atoms(target);
    assert_eq!(chosen, written.least_two_atoms(&target));
    tally.first_stages += 1;
    let whole = access::layer1(target, &setting.atoms, setting.width);
    if is_product_or_none(&whole) {
        assert_eq!(whole, chosen.map(|trial| written.written_out(trial)));
        tally.layer1 += 1;
    }
}

/// The Rust's two loops, each to its end, keep what trying everything keeps, and something exactly if anything fits.
fn check_least(tally: &mut Tally, setting: &Setting, target: Row) {
    let least = setting.least_product(target);
    assert_eq!(least, setting.try_everything(&target));
    let fits = product::anything_fits(&target, &setting.rows, &setting.index.rows, setting.width);
    assert_eq!(least.is_some(), fits);
    tally.least += 1;
}

fn check_candidates(tally: &mut Tally, inputs: &mut Inputs, setting: &Setting, t: u64) {
    let words = first_words(&setting.index.rows);
    let width = setting.width;
    let any = inputs.word_of_width(width);
    let even = any & (u64::MAX << inputs.below(12));
    for p in [inputs.one_of(&setting.rows)[0], any, even] {
        let (used, list) = access::candidates(&words, p, t, width);
        let expected = product::candidates(&words, p, t, width);
        assert_eq!(
            (used, list),
            (expected.is_some(), expected.unwrap_or_default())
        );
        tally.candidates += 1;
    }
}

/// Layers 1 and 2 look for products last: whatever else they find tells nothing about products.
fn is_product_or_none(found: &Option<Formula>) -> bool {
    found
        .as_ref()
        .is_none_or(|formula| formula.ops.last() == Some(&MUL))
}

//! Every input of some small spaces, for the smallest that shows a difference.
//!
//! A space need not hold every order of the points: a row's words stand apart from one another but for the first, which the
//! filter reads. So a set of points with one of them first stands for all its lists. Of the targets, only those count that
//! have an answer with a pair: where nothing fits, the Rust finds nothing either, and of two atoms it keeps the cheapest too.

use std::collections::HashSet;
use std::fmt;
use std::ops::RangeInclusive;

use crate::access::{self, Row, Trial};

use super::{repeated_points, Setting, PAIRS_MAX};
use crate::inputs::one_variable;
use crate::spec::product::product;

pub fn print() {
    print_d1();
    print_d2();
}

/// A bank's width, that of its index and that of the search. D1 wants a search at a lesser width than the index has.
#[derive(Clone, Copy)]
struct Widths {
    bank: u32,
    index: u32,
    search: u32,
}

impl Widths {
    /// All of these banks and indexes with every lesser width of the search.
    fn all(banks: RangeInclusive<u32>, indexes: RangeInclusive<u32>) -> Vec<Self> {
        let both = banks.flat_map(|bank| indexes.clone().map(move |index| (bank, index)));
        let lesser = |(bank, index)| {
            (1..index).map(move |search| Widths {
                bank,
                index,
                search,
            })
        };
        both.flat_map(lesser).collect()
    }
}

impl fmt::Display for Widths {
    fn fmt(&self, f: &mut fmt::Formatter<'_>) -> fmt::Result {
        let Widths {
            bank,
            index,
            search,
        } = self;
        write!(
            f,
            "bank of width {bank}, index of {index}, search at {search}"
        )
    }
}

/// Of one variable: all points at small widths, where words of banks up to width 2 make no others in indexes beyond width 4; then all
/// points equal.
fn print_d1() {
    let small = Widths::all(1..=2, 2..=4);
    for widths in small.into_iter().chain(Widths::all(3..=3, 2..=3)) {
        let mut space = Space::of_d1(format!(
            "one variable, {widths}, every set of points, every first one, every seeding"
        ));
        for points in sets_with_first(1 << widths.bank) {
            space.product_loops(widths, &points, &pairs_of_seeds(widths.bank));
        }
        space.print();
    }
    for bank in 3..=5 {
        let mut space = Space::of_d1(format!(
            "one variable, bank of width {bank}, indexes of widths 3 to 6, search at every lesser width, all points equal, at most one \
             word seeded"
        ));
        for widths in Widths::all(bank..=bank, 3..=6) {
            for point in 0..1 << bank {
                space.product_loops(widths, &[point], &single_seeds(bank));
            }
        }
        space.print();
    }
    print_six_atoms();
}

/// One width throughout: every set of points where they are few, then all points equal.
fn print_d2() {
    for (num_vars, width) in [(1, 1), (1, 2), (1, 3), (2, 1), (3, 1)] {
        let points = sets_with_first(1 << (width * num_vars));
        let name = format!(
            "variables {num_vars}, width {width}, every set of points, every first one, zero bank target"
        );
        D2Spaces::new(&name).search(num_vars, width, &points, &[[0; 16]]);
    }
    for width in 4..=5 {
        let points: Vec<Vec<u64>> = (0..1 << width).map(|point| vec![point]).collect();
        let name =
            format!("one variable, width {width}, all points equal, at most one word seeded");
        D2Spaces::new(&name).search(1, width, &points, &single_seeds(width));
    }
}

/// D2 by its two cases.
struct D2Spaces {
    cheaper_pair: Space,
    later_pair: Space,
}

impl D2Spaces {
    fn new(name: &str) -> Self {
        let space = |case: &str| Space::new(format!("D2, {case}, in {name}"));
        Self {
            cheaper_pair: space("a pair cheaper than two atoms"),
            later_pair: space("a pair cheaper than the first"),
        }
    }

    /// All of these points with all bank targets.
    fn search(mut self, num_vars: u32, width: u32, points: &[Vec<u64>], bank_targets: &[Row]) {
        for codes in points {
            let point = |&code: &u64| digits(code, num_vars, width);
            let points: Vec<Vec<u64>> = codes.iter().map(point).collect();
            let mut seen: HashSet<Vec<Row>> = HashSet::new();
            for &bank_target in bank_targets {
                let atoms = access::bank(num_vars, width, &repeated_points(&points), bank_target);
                if seen.insert(atoms.iter().map(|atom| atom.row).collect()) {
                    let setting = Setting::new(atoms, PAIRS_MAX, width);
                    self.answers(&points, bank_target, &setting);
                }
            }
        }
        self.cheaper_pair.print();
        self.later_pair.print();
    }

    /// Every row that has an answer with a pair.
    fn answers(&mut self, points: &[Vec<u64>], bank_target: Row, setting: &Setting) {
        let two_atoms = products_of_atoms(setting);
        let (cheaper, later): (Vec<_>, Vec<_>) = answers_with_pair(setting)
            .into_iter()
            .partition(|found| two_atoms.contains(&found.0));
        let rust = setting.two_atoms_each(&targets(&cheaper));
        self.cheaper_pair
            .answers(points, bank_target, setting, &cheaper, &rust);
        let rust = setting.product_loops(&targets(&later));
        self.later_pair
            .answers(points, bank_target, setting, &later, &rust);
    }
}

fn targets(found: &[(Row, Trial)]) -> Vec<Row> {
    found.iter().map(|found| found.0).collect()
}

/// The bank of six atoms that all points equal 0, 1 or 2^w - 1 give, the fewest from width 3 up; its index of the same width.
fn print_six_atoms() {
    let name =
        "the bank of six atoms and its index at widths 3 to 64, search at every lesser width";
    let mut space = Space::of_d1(name.to_string());
    for bank in 3..=64 {
        for widths in Widths::all(bank..=bank, bank..=bank) {
            for point in [0, 1, u64::MAX >> (64 - bank)] {
                space.product_loops(widths, &[point], &[[0; 16]]);
            }
        }
    }
    space.print();
}

/// What was found in a space.
struct Space {
    name: String,
    settings: usize,
    differences: usize,
    /// By atoms and pairs, then the text.
    smallest: Option<([usize; 2], String)>,
}

impl Space {
    fn of_d1(name: String) -> Self {
        Self::new(format!("D1 in {name}"))
    }

    fn new(name: String) -> Self {
        Self {
            name,
            settings: 0,
            differences: 0,
            smallest: None,
        }
    }

    /// The product loop over every bank of these points and bank targets, for every row that has an answer.
    fn product_loops(&mut self, widths: Widths, points: &[u64], bank_targets: &[Row]) {
        let mut seen: HashSet<Vec<Row>> = HashSet::new();
        for &bank_target in bank_targets {
            let atoms = access::bank(1, widths.bank, &one_variable(points), bank_target);
            if seen.insert(atoms.iter().map(|atom| atom.row).collect()) {
                let setting = Setting::with_index(atoms, PAIRS_MAX, widths.index, widths.search);
                self.product_loop(widths, points, bank_target, &setting);
            }
        }
    }

    /// Whether the Rust finds something where no two atoms fit.
    fn product_loop(
        &mut self,
        widths: Widths,
        points: &[u64],
        bank_target: Row,
        setting: &Setting,
    ) {
        self.settings += 1;
        let width = widths.search;
        let two_atoms = products_of_atoms(setting);
        let mut with_pair = answers_with_pair(setting);
        with_pair.retain(|(target, _)| !two_atoms.contains(target));
        let rust = setting.product_loops(&targets(&with_pair));
        for ((target, found), rust) in with_pair.into_iter().zip(rust) {
            if rust.is_some() {
                continue;
            }
            // the pair that the Rust misses has a first word beyond the width
            let Trial::AtomPair(_, pair) = found else {
                panic!("no two atoms fit");
            };
            assert!(setting.index.rows[pair][0] >> width != 0);
            let text = format!(
                "{widths}, points {points:?}, bank target {:?}, target {:?}: {found:?}, Rust none",
                &bank_target[..2],
                &target[..points.len()]
            );
            self.note(setting, text);
        }
    }

    /// The Rust's answers, which cost more where they are others.
    fn answers(
        &mut self,
        points: &[Vec<u64>],
        bank_target: Row,
        setting: &Setting,
        found: &[(Row, Trial)],
        rust: &[Option<Trial>],
    ) {
        self.settings += 1;
        for (&(target, found), &rust) in found.iter().zip(rust) {
            let rust = rust.expect("something fits");
            if rust == found {
                continue;
            }
            let [cost, rust_cost] = [found, rust].map(|trial| setting.written().cost(trial));
            assert!(cost < rust_cost);
            let text = format!(
                "points {points:?}, bank target {:?}, target {:?}: {found:?} for {cost:?}, Rust {rust:?} for {rust_cost:?}",
                &bank_target[..2],
                &target[..points.len()],
            );
            self.note(setting, text);
        }
    }

    fn note(&mut self, setting: &Setting, text: String) {
        self.differences += 1;
        let key = [setting.rows.len(), setting.index.rows.len()];
        let least = self.smallest.as_ref();
        if least.is_none_or(|(least_key, _)| key < *least_key) {
            self.smallest = Some((key, text));
        }
    }

    fn print(&self) {
        println!(
            "{}: {} banks, {} differences",
            self.name, self.settings, self.differences
        );
        if let Some(([atoms, pairs], text)) = &self.smallest {
            println!("  smallest: {atoms} atoms, {pairs} pairs; {text}");
        }
    }
}

/// The rows that some two atoms fit.
fn products_of_atoms(setting: &Setting) -> HashSet<Row> {
    let rows = &setting.rows;
    let with = |left| {
        rows.iter()
            .map(move |right| product(left, right, setting.width))
    };
    rows.iter().flat_map(with).collect()
}

/// Every row whose answer is an atom and a pair, in the order of the rows.
fn answers_with_pair(setting: &Setting) -> Vec<(Row, Trial)> {
    let answers = setting.written().all_answers().into_iter();
    let mut with_pair: Vec<(Row, Trial)> = answers
        .filter(|(_, trial)| matches!(trial, Trial::AtomPair(..)))
        .collect();
    with_pair.sort_by_key(|found| found.0);
    with_pair
}

/// The words of a point that is counted by one number.
fn digits(code: u64, num_vars: u32, width: u32) -> Vec<u64> {
    (0..num_vars)
        .map(|place| (code >> (place * width)) % (1 << width))
        .collect()
}

/// Every set of numbers below `bound` that is not empty, ascending.
fn sets(bound: u64) -> Vec<Vec<u64>> {
    (1u64..1 << bound)
        .map(|members| (0..bound).filter(|n| members >> n & 1 == 1).collect())
        .collect()
}

/// Every set with every one of its members first.
fn sets_with_first(bound: u64) -> Vec<Vec<u64>> {
    let mut lists = Vec::new();
    for set in sets(bound) {
        for place in 0..set.len() {
            let mut list = set.clone();
            let first = list.remove(place);
            list.insert(0, first);
            lists.push(list);
        }
    }
    lists
}

/// Bank targets of one word, zero too.
fn single_seeds(bank_width: u32) -> Vec<Row> {
    (0..1 << bank_width).map(|word| [word; 16]).collect()
}

/// Bank targets of one or two words. Up to width 3 they seed in every way with one variable: only 3 and 4 can be new there.
fn pairs_of_seeds(bank_width: u32) -> Vec<Row> {
    let mut targets = single_seeds(bank_width);
    for first in 0..1 << bank_width {
        for second in 0..1 << bank_width {
            let mut target = [second; 16];
            target[0] = first;
            targets.push(target);
        }
    }
    targets
}

//! The product search. The Rust has none that keeps the least: its side does the same tests in plain Rust, goes over layers 1 and 2 with
//! the originals' filter and matches to their ends, and keeps the cheapest product, its costs from the tokens (`least_product_over`).

use std::hint::black_box;

use oracle::access::{self, Opcodes, Row, Trial};
use oracle::made::banks::largest;
use oracle::spec::formulas::VARS_MAX;
use oracle::spec::product::product;
use simjaldek::lent::{self, Tokens, WrittenAtoms, WrittenPairs};
use simjaldek::{AtomSlot, PairSlot, Product, ATOMS_MAX, ATOM_TOKENS, PAIRS_MAX, ROW_WORDS};

use crate::measure::{alternate, together, Plan, Times};
use crate::setting::inputs;
use crate::tokens::is_formula;
use crate::{Call, Setting};

/// Products of late atoms with any pairs, of which the one that is found last is taken; and rows of pairs.
const TRIES: u64 = 64;
/// Even rows and constants, of which the one that most trials fit is taken.
const EVEN_TRIES: u64 = 32;
const CONSTANTS: u64 = 32;

/// Times a search for each kind of answer.
pub fn time(plan: &Plan, setting: &Setting, take: &mut impl FnMut(Call, String, Times)) {
    time_targets(plan, setting, &targets(setting), take);
}

/// Times a search that very many trials fit, at a small width.
pub fn time_even(plan: &Plan, setting: &Setting, take: &mut impl FnMut(Call, String, Times)) {
    time_targets(plan, setting, &[(Call::SearchEven, even(setting))], take);
}

fn time_targets(
    plan: &Plan,
    setting: &Setting,
    targets: &[(Call, Row)],
    take: &mut impl FnMut(Call, String, Times),
) {
    for (call, target) in targets {
        let answer = check_target(setting, *call, target);
        let mut ours = together(|| our_search(setting, black_box(target)));
        let mut rust = together(|| rust_search(setting, black_box(target)));
        let times = alternate(plan, &mut ours, &mut rust);
        take(*call, note(setting, target, answer), times);
    }
}

/// Both sides find the same.
pub fn check(setting: &Setting) {
    for (call, target) in targets(setting) {
        check_target(setting, call, &target);
    }
}

/// The same for the search at a small width.
pub fn check_even(setting: &Setting) {
    check_target(setting, Call::SearchEven, &even(setting));
}

/// Both sides' answer, which is of the kind that the call is named after.
fn check_target(setting: &Setting, call: Call, target: &Row) -> Option<Trial> {
    let answer = rust_search(setting, target);
    assert_eq!(our_search(setting, target), answer);
    let is_kind = match call {
        Call::SearchNothing | Call::SearchNothingZero => answer.is_none(),
        Call::SearchAtomsEarly | Call::SearchAtomsLate => {
            matches!(answer, Some(Trial::Atoms(..)))
        }
        Call::SearchPairEarly | Call::SearchPairLate => {
            matches!(answer, Some(Trial::AtomPair(..)))
        }
        _ => answer.is_some(),
    };
    assert!(is_kind, "{call:?}: {answer:?}");
    answer
}

fn note(setting: &Setting, target: &Row, answer: Option<Trial>) -> String {
    let (atoms, pairs) = (setting.ours.atoms, setting.ours.built.pairs);
    let fits = match fits(setting, target) {
        0 => String::new(),
        1 => ", one fits".to_owned(),
        count => format!(", {count} fit"),
    };
    match answer {
        None => format!("{atoms} atoms, {pairs} pairs"),
        Some(Trial::Atoms(a, b)) => format!("atoms {a} and {b} of {atoms}{fits}"),
        Some(Trial::AtomPair(a, s)) => format!("atom {a} of {atoms}, pair {s} of {pairs}{fits}"),
    }
}

/// How many trials fit.
fn fits(setting: &Setting, target: &Row) -> usize {
    access::count_products_over(*target, &setting.pool, &setting.inner, setting.width)
}

/// Our side.
fn our_search(setting: &Setting, target: &Row) -> Option<Trial> {
    let (atoms, pairs) = (setting.ours.atoms(), setting.ours.pairs());
    match lent::product_search(setting.width, atoms, pairs, target) {
        Ok(Product::Atoms(AtomSlot(a), AtomSlot(b))) => Some(Trial::Atoms(a as usize, b as usize)),
        Ok(Product::AtomPair(AtomSlot(a), PairSlot(s))) => {
            Some(Trial::AtomPair(a as usize, s as usize))
        }
        Ok(Product::Nothing) => None,
        Err(refusal) => panic!("{refusal}"),
    }
}

/// The Rust's side: what is refused is tested first.
fn rust_search(setting: &Setting, target: &Row) -> Option<Trial> {
    let plain = Plain {
        width: setting.width,
        atoms: setting.ours.atoms(),
        pairs: setting.ours.pairs(),
        target,
    };
    assert!(plain.is_fit());
    let opcodes = Opcodes {
        lengths: plain.atoms.lengths,
        ops: plain.atoms.ops,
    };
    access::least_product_over(
        *target,
        &setting.pool,
        &setting.inner,
        opcodes,
        setting.width,
    )
}

/// What the Rust's side is handed.
struct Plain<'a> {
    width: u32,
    atoms: WrittenAtoms<'a>,
    pairs: WrittenPairs<'a>,
    target: &'a [u64],
}

impl Plain<'_> {
    /// What refusals 2, 4, 5, 6, 7 and 8 test.
    fn is_fit(&self) -> bool {
        (1..=64).contains(&self.width)
            && self.are_arrays_long()
            && self.target[..ROW_WORDS]
                .iter()
                .all(|&word| word <= largest(self.width))
            && (0..self.atoms.count).all(|atom| self.is_formula(atom))
            && self.atoms.count <= ATOMS_MAX
            && self.pairs.count <= PAIRS_MAX
            && are_pairs(&self.pairs.words[..3 * self.pairs.count], self.atoms.count)
            && is_order_list(self.pairs.rows, &self.pairs.order[..self.pairs.count])
    }

    fn are_arrays_long(&self) -> bool {
        let Plain { atoms, pairs, .. } = self;
        atoms.lengths.len() >= atoms.count
            && atoms.ops.len() / ATOM_TOKENS >= atoms.count
            && atoms.operands.len() / ATOM_TOKENS >= atoms.count
            && atoms.rows.len() / ROW_WORDS >= atoms.count
            && pairs.words.len() / 3 >= pairs.count
            && pairs.rows.len() / ROW_WORDS >= pairs.count
            && pairs.order.len() >= pairs.count
            && self.target.len() >= ROW_WORDS
    }

    /// Whether an atom has one to six tokens that pass the formula test with six variables.
    fn is_formula(&self, atom: usize) -> bool {
        let length = self.atoms.lengths[atom] as usize;
        if length == 0 || length > ATOM_TOKENS {
            return false;
        }
        let tokens = Tokens {
            count: length,
            ops: &self.atoms.ops[ATOM_TOKENS * atom..],
            operands: &self.atoms.operands[ATOM_TOKENS * atom..],
        };
        is_formula(VARS_MAX, tokens)
    }
}

/// Whether all gates are up to 4, and all b and c below the count of atoms, which is small. One branch a pair is faster than three.
fn are_pairs(words: &[u32], atoms: usize) -> bool {
    let atoms = atoms as u32;
    let mut pairs = words.chunks_exact(3);
    pairs.all(|pair| (pair[0] <= 4) & (pair[1] < atoms) & (pair[2] < atoms))
}

/// Whether all slots of the list are below its length, and strictly ascending by (first row word, slot): what refusal 8 tests. Reads
/// each first word once.
pub(crate) fn is_order_list(rows: &[u64], order: &[u32]) -> bool {
    let mut last = None;
    for &slot in order {
        if slot as usize >= order.len() {
            return false;
        }
        let next = Some((rows[ROW_WORDS * slot as usize], slot));
        if next <= last {
            return false;
        }
        last = next;
    }
    true
}

/// A target for each kind of answer, and two that many trials fit.
fn targets(setting: &Setting) -> [(Call, Row); 8] {
    [
        (Call::SearchNothing, setting.target),
        (Call::SearchNothingZero, first_word_zero(setting)),
        (Call::SearchAtomsEarly, atoms_early(setting)),
        (Call::SearchAtomsLate, atoms_late(setting)),
        (Call::SearchPairEarly, pair_early(setting)),
        (Call::SearchPairLate, pair_late(setting)),
        (Call::SearchZeros, [0; ROW_WORDS]),
        (Call::SearchConstant, constant(setting)),
    ]
}

/// The target with its first word 0: an atom whose first word is 0 has no filter and is tried with every pair, by slot; one whose
/// first word is even has many candidates.
fn first_word_zero(setting: &Setting) -> Row {
    let mut target = setting.target;
    target[0] = 0;
    target
}

/// The row of an atom, from the middle on, that is answered with the least atom: mostly atom 1, the constant 1, times it.
fn atoms_early(setting: &Setting) -> Row {
    let rows = (setting.ours.atoms / 2..setting.ours.atoms).map(|slot| setting.ours.atom_row(slot));
    let place = |row: &Row| match rust_search(setting, row) {
        Some(Trial::Atoms(a, _)) => a,
        _ => usize::MAX,
    };
    rows.min_by_key(place).expect("a bank has atoms")
}

/// The square of an atom that is answered with the last atom.
fn atoms_late(setting: &Setting) -> Row {
    let place = |target: &Row| match rust_search(setting, target) {
        Some(Trial::Atoms(a, _)) => Some(a),
        _ => None,
    };
    (0..setting.ours.atoms)
        .map(|slot| setting.ours.atom_row(slot))
        .map(|row| product(&row, &row, setting.width))
        .max_by_key(place)
        .expect("a bank has atoms")
}

/// Of some rows of pairs the one that is answered by a pair with the least atom: mostly atom 1 times it.
fn pair_early(setting: &Setting) -> Row {
    let pairs = setting.ours.built.pairs as u64;
    let inputs = &mut inputs(setting.num_vars, setting.width, 5);
    let mut any = || setting.ours.pair_row(inputs.below(pairs) as usize);
    let tries: Vec<Row> = (0..TRIES).map(|_| any()).collect();
    let place = |row: &Row| pair_answer(setting, row).unwrap_or(usize::MAX);
    let found = tries.into_iter().min_by_key(place);
    found.expect("there is a try")
}

/// The atom of an answer with a pair.
fn pair_answer(setting: &Setting, target: &Row) -> Option<usize> {
    match rust_search(setting, target) {
        Some(Trial::AtomPair(a, _)) => Some(a),
        _ => None,
    }
}

/// Of some products of a late atom and a pair the one that only fits one trial, with the last atom; or, if there is none, fits fewest.
fn pair_late(setting: &Setting) -> Row {
    let (atoms, pairs) = (setting.ours.atoms, setting.ours.built.pairs);
    let inputs = &mut inputs(setting.num_vars, setting.width, 1);
    let mut late = || {
        let atom = atoms - 1 - inputs.below(atoms as u64 / 2) as usize;
        let pair = inputs.below(pairs as u64) as usize;
        let (atom, pair) = (setting.ours.atom_row(atom), setting.ours.pair_row(pair));
        product(&atom, &pair, setting.width)
    };
    let tries: Vec<Row> = (0..TRIES).map(|_| late()).collect();
    let with_pair = tries
        .into_iter()
        .filter_map(|row| Some((pair_answer(setting, &row)?, row)));
    let found = with_pair.max_by_key(|(atom, row)| (usize::MAX - fits(setting, row), *atom));
    found.expect("some products need a pair").1
}

/// Of some constants, small and negative, that the bank's target doesn't seed the one that most trials fit.
fn constant(setting: &Setting) -> Row {
    let largest = largest(setting.width);
    let words = (3..3 + CONSTANTS).flat_map(|word| [word, largest - word]);
    let not_seeded = words.filter(|word| !setting.target.contains(word));
    let rows = not_seeded.map(|word| [word; ROW_WORDS]);
    rows.max_by_key(|row| fits(setting, row))
        .expect("more words than seeds")
}

/// Half of 2^w times an atom, all words 0 or that half: of some, the row that most trials fit.
fn even(setting: &Setting) -> Row {
    let inputs = &mut inputs(setting.num_vars, setting.width, 6);
    let half = [1 << (setting.width - 1); ROW_WORDS];
    let mut any = || {
        let atom = inputs.below(setting.ours.atoms as u64) as usize;
        product(&half, &setting.ours.atom_row(atom), setting.width)
    };
    let tries: Vec<Row> = (0..EVEN_TRIES).map(|_| any()).collect();
    let not_zeros = tries.into_iter().filter(|row| *row != [0; ROW_WORDS]);
    not_zeros
        .max_by_key(|row| fits(setting, row))
        .expect("some atom is odd somewhere")
}

#[cfg(test)]
mod tests {
    use super::{are_pairs, even, fits, is_order_list, rust_search, targets, Plain};
    use crate::Setting;
    use oracle::access::Row;
    use oracle::spec::product::Written;
    use simjaldek::lent::{WrittenAtoms, WrittenPairs};
    use simjaldek::PAIRS_MAX;

    /// The Rust's side finds what trying everything finds.
    #[test]
    fn plain_search() {
        for (num_vars, width) in [(1, 2), (1, 8), (1, 64), (2, 2), (2, 8)] {
            let setting = Setting::new(num_vars, width);
            let (atoms, index) = (setting.pool.views(), setting.inner.view(PAIRS_MAX));
            let written = Written {
                atoms: &atoms,
                index: &index,
                width,
            };
            let mut rows: Vec<Row> = vec![even(&setting), [0; 16], setting.target];
            if width > 2 {
                rows.extend(targets(&setting).map(|target| target.1));
            }
            for row in rows {
                assert_eq!(rust_search(&setting, &row), written.try_everything(&row));
                assert_eq!(fits(&setting, &row), written.fitting(&row).len());
            }
        }
    }

    /// Rows with these first words.
    fn rows(first_words: &[u64]) -> Vec<u64> {
        let row = |&word: &u64| [word; 16];
        first_words.iter().flat_map(row).collect()
    }

    #[test]
    fn order_lists() {
        let rows = rows(&[7, 0, 7, 3]);
        assert!(is_order_list(&rows, &[1, 3, 0, 2]));
        assert!(is_order_list(&rows, &[]));
        for order in [[1, 3, 2, 0], [3, 1, 0, 2], [1, 3, 0, 0], [1, 3, 0, 4]] {
            assert!(!is_order_list(&rows, &order));
        }
    }

    #[test]
    fn pairs() {
        assert!(are_pairs(&[4, 2, 0, 0, 0, 2], 3));
        for words in [[5, 0, 0], [0, 3, 0], [0, 0, 3]] {
            assert!(!are_pairs(&words, 3));
        }
    }

    /// Whether an atom with these tokens, and no pairs, is fit.
    fn is_fit(length: u32, tokens: &[(u8, u64)]) -> bool {
        let (mut ops, mut operands) = ([255; 6], [0; 6]);
        for (place, &(op, operand)) in tokens.iter().enumerate() {
            (ops[place], operands[place]) = (op, operand);
        }
        let plain = Plain {
            width: 8,
            atoms: WrittenAtoms {
                count: 1,
                lengths: &[length],
                ops: &ops,
                operands: &operands,
                rows: &[0; 16],
            },
            pairs: WrittenPairs {
                count: 0,
                words: &[],
                rows: &[],
                order: &[],
            },
            target: &[0; 16],
        };
        plain.is_fit()
    }

    #[test]
    fn formulas() {
        let [constant, variable, not, add] = [(0, 9), (1, 5), (7, 0), (2, 0)];
        assert!(is_fit(1, &[constant]) && is_fit(2, &[variable, not]));
        assert!(is_fit(4, &[constant, variable, add, not]));
        for (length, tokens) in [
            (0, &[constant][..]),
            (7, &[constant, not, not, not, not, not]),
            (1, &[not]),
            (2, &[constant, add]),
            (2, &[constant, variable]),
            (1, &[(1, 6)]),
            (2, &[constant, (7, 1)]),
            (2, &[constant, (9, 0)]),
            (2, &[constant]),
        ] {
            assert!(!is_fit(length, tokens), "{length} {tokens:?}");
        }
    }
}

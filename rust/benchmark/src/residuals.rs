//! The residual search. The Rust has none over lent arrays: its side is a single pass in plain Rust over the same arrays, with a
//! `HashMap` of the residual rows. The originals' own loop over `gate_residual` and `ValMap::find`, whose maps exist already, is timed
//! beside it, without a bar.

use std::collections::HashMap;
use std::hint::black_box;
use std::iter;

use oracle::access::{self, Completion, Part, Row};
use oracle::made::banks::largest;
use oracle::spec::gates::gate_row;
use oracle::spec::residual::OUTER_GATES;
use simjaldek::lent::{self, Atoms, PairRows};
use simjaldek::{AtomSlot, Completion as Ours, Gate, PairSlot, ATOMS_MAX, PAIRS_MAX, ROW_WORDS};

use crate::measure::{alternate, alternate_uneven, together, Plan, Times};
use crate::setting::inputs;
use crate::{Call, Setting};

/// Sums, of which the one that is found last is taken; and rows, of which the first that nothing completes is taken.
const TRIES: usize = 256;

/// Times a search for each kind of answer, beside the plain pass and beside the originals' loop.
pub fn time(plan: &Plan, setting: &Setting, take: &mut impl FnMut(Call, String, Times)) {
    for (call, target) in targets(setting) {
        let answer = check_target(setting, call, &target);
        let mut ours = together(|| our_search(setting, black_box(&target)));
        let mut plain = together(|| plain_search(setting, black_box(&target)));
        let times = alternate(plan, &mut ours, &mut plain);
        take(call, note(setting, answer), times);
        let mut maps = together(|| rust_search(setting, black_box(&target)));
        let times = alternate_uneven(plan, &mut ours, &mut maps);
        take(Call::ResidualMaps, note(setting, answer), times);
    }
}

/// All sides find the same.
pub fn check(setting: &Setting) {
    for (call, target) in targets(setting) {
        check_target(setting, call, &target);
    }
}

/// All sides' answer, which is of the kind that the call is named after.
fn check_target(setting: &Setting, call: Call, target: &Row) -> Option<Completion> {
    let answer = rust_search(setting, target);
    assert_eq!(our_search(setting, target), answer);
    assert_eq!(plain_search(setting, target), answer);
    let kind = match answer.map(|found| found.other) {
        None => &[Call::ResidualNothing][..],
        Some(Part::Atom(_)) => &[Call::ResidualAtoms],
        Some(Part::Pair(_)) => &[Call::ResidualPairEarly, Call::ResidualPairLate],
    };
    assert!(kind.contains(&call), "{call:?}: {answer:?}");
    answer
}

fn note(setting: &Setting, answer: Option<Completion>) -> String {
    let (atoms, pairs) = (setting.ours.atoms, setting.ours.built.pairs);
    let Some(Completion { gate, atom, other }) = answer else {
        return format!("{atoms} atoms, {pairs} pairs");
    };
    let gate = Gate::ALL[gate];
    match other {
        Part::Atom(b) => format!("{gate:?}, atoms {atom} and {b} of {atoms}"),
        Part::Pair(s) => format!("{gate:?}, atom {atom} of {atoms}, pair {s} of {pairs}"),
    }
}

/// Our side.
fn our_search(setting: &Setting, target: &Row) -> Option<Completion> {
    let (atoms, pairs) = (setting.ours.atoms().rows(), setting.ours.pair_rows());
    let found = lent::residual_search(setting.width, atoms, pairs, target);
    let (gate, AtomSlot(atom), other) = match found.expect("the arrays are fit") {
        Ours::Atoms(gate, a, AtomSlot(b)) => (gate, a, Part::Atom(b as usize)),
        Ours::AtomPair(gate, a, PairSlot(s)) => (gate, a, Part::Pair(s as usize)),
        Ours::Nothing => return None,
    };
    let (gate, atom) = (gate.number() as usize, atom as usize);
    Some(Completion { gate, atom, other })
}

/// The originals' loop.
fn rust_search(setting: &Setting, target: &Row) -> Option<Completion> {
    access::completion_over(*target, &setting.pool, &setting.inner, setting.width)
}

/// The plain pass over our arrays; what is refused is tested first.
fn plain_search(setting: &Setting, target: &Row) -> Option<Completion> {
    let plain = Plain {
        width: setting.width,
        atoms: setting.ours.atoms().rows(),
        pairs: setting.ours.pair_rows(),
        target,
    };
    assert!(plain.is_fit());
    plain.search()
}

/// What the plain pass is handed.
struct Plain<'a> {
    width: u32,
    atoms: Atoms<'a>,
    pairs: PairRows<'a>,
    target: &'a [u64],
}

impl Plain<'_> {
    /// What refusals 2, 4, 5 and 7 test.
    fn is_fit(&self) -> bool {
        (1..=64).contains(&self.width)
            && self.target.len() >= ROW_WORDS
            && self.atoms.rows.len() / ROW_WORDS >= self.atoms.count
            && self.pairs.rows.len() / ROW_WORDS >= self.pairs.count
            && self.target[..ROW_WORDS]
                .iter()
                .all(|&word| word <= largest(self.width))
            && self.atoms.count <= ATOMS_MAX
            && self.pairs.count <= PAIRS_MAX
    }

    /// The first completion: the residuals by their rows, each with the first gate and atom that has it; then one pass over the bank and
    /// one over the listed rows. A later row counts only for an earlier residual, and the very first can't be beaten.
    fn search(&self) -> Option<Completion> {
        let residuals = self.residuals();
        let bank = rows(self.atoms.rows, self.atoms.count).zip((0..).map(Part::Atom));
        let index = rows(self.pairs.rows, self.pairs.count).zip((0..).map(Part::Pair));
        let mut first = None;
        let mut before = usize::MAX;
        for (row, other) in bank.chain(index) {
            match residuals.get(row) {
                Some(&place) if place < before => {
                    (first, before) = (Some(other), place);
                    if place == 0 {
                        break;
                    }
                }
                _ => {}
            }
        }
        first.map(|other| Completion {
            gate: OUTER_GATES[before / self.atoms.count],
            atom: before % self.atoms.count,
            other,
        })
    }

    /// The residuals' places, Xor's then Add's, by their rows.
    fn residuals(&self) -> HashMap<Row, usize> {
        let count = self.atoms.count;
        let mut residuals = HashMap::with_capacity(2 * count);
        let mask = largest(self.width);
        for (place, row) in rows(self.atoms.rows, count).enumerate() {
            let xor = std::array::from_fn(|i| (self.target[i] ^ row[i]) & mask);
            residuals.entry(xor).or_insert(place);
        }
        for (place, row) in rows(self.atoms.rows, count).enumerate() {
            let difference = std::array::from_fn(|i| self.target[i].wrapping_sub(row[i]) & mask);
            residuals.entry(difference).or_insert(count + place);
        }
        residuals
    }
}

/// The first rows of an array.
fn rows(words: &[u64], count: usize) -> impl Iterator<Item = &[u64]> {
    words.chunks_exact(ROW_WORDS).take(count)
}

/// A target for each kind of answer that the setting has: at width 1 there may be no pairs, or no row that nothing completes.
///
/// In a built bank atom 0 is the constant 0, which any row completes to itself. So a row of the bank or of the index is found with it,
/// and so is the sum or xor of any two atoms, if the index is whole: two atoms are never found late.
fn targets(setting: &Setting) -> Vec<(Call, Row)> {
    let pairs = setting.ours.built.pairs;
    let middle = (pairs > 0).then(|| setting.ours.pair_row(pairs / 2));
    let all = [
        (Call::ResidualNothing, nothing(setting)),
        (Call::ResidualAtoms, Some(setting.ours.atom_row(1))),
        (Call::ResidualPairEarly, middle),
        (Call::ResidualPairLate, late(setting)),
    ];
    let there = all.into_iter().filter_map(|(call, row)| Some((call, row?)));
    there.collect()
}

/// The bank's own target, or another random row, that nothing completes.
fn nothing(setting: &Setting) -> Option<Row> {
    let inputs = &mut inputs(setting.num_vars, setting.width, 3);
    let others = (0..TRIES).map(|_| inputs.row(setting.width));
    let mut rows = iter::once(setting.target).chain(others);
    rows.find(|row| rust_search(setting, row).is_none())
}

/// Of some sums of an atom and a pair the one that is found last.
fn late(setting: &Setting) -> Option<Row> {
    let (atoms, pairs) = (setting.ours.atoms as u64, setting.ours.built.pairs as u64);
    if pairs == 0 {
        return None;
    }
    let inputs = &mut inputs(setting.num_vars, setting.width, 4);
    let mut sum = || {
        let atom = setting.ours.atom_row(inputs.below(atoms) as usize);
        let pair = setting.ours.pair_row(inputs.below(pairs) as usize);
        gate_row(&atom, &pair, OUTER_GATES[1], setting.width)
    };
    let place = |target: &Row| {
        let found = rust_search(setting, target)?;
        Some((found.gate, found.atom))
    };
    (0..TRIES).map(|_| sum()).max_by_key(place)
}

#[cfg(test)]
mod tests {
    use super::{Plain, Row};
    use oracle::access::{Completion, Part};
    use oracle::inputs::Inputs;
    use oracle::made::rows::{few_rows, late_one_of};
    use oracle::spec::gates::gate_row;
    use oracle::spec::residual::{try_everything, OUTER_GATES};
    use simjaldek::lent::{Atoms, PairRows};

    fn search(width: u32, atoms: &[Row], pairs: &[Row], target: &Row) -> Option<Completion> {
        let plain = Plain {
            width,
            atoms: Atoms {
                count: atoms.len(),
                rows: atoms.as_flattened(),
            },
            pairs: PairRows {
                count: pairs.len(),
                rows: pairs.as_flattened(),
            },
            target,
        };
        assert!(plain.is_fit());
        plain.search()
    }

    /// The plain pass finds what trying everything finds, also where rows repeat and where words reach 2^width.
    #[test]
    fn plain_pass() {
        let inputs = &mut Inputs::from_seed(5);
        let mut pairs_found = 0;
        for turn in 0..2000 {
            let width = 1 + turn % 5;
            let rows = few_rows(inputs, width + turn % 2);
            let mut some = |most: u64| -> Vec<Row> {
                let count = 1 + inputs.below(most);
                (0..count).map(|_| inputs.one_of(&rows)).collect()
            };
            let (atoms, pairs) = (some(6), some(9));
            let (a, b) = (late_one_of(inputs, &atoms), late_one_of(inputs, &pairs));
            let gate = inputs.one_of(&OUTER_GATES);
            let target = gate_row(&a, &b, gate, width);
            let found = search(width, &atoms, &pairs, &target);
            assert_eq!(try_everything(&target, &atoms, &pairs, width), found);
            let is_pair = |found: Completion| matches!(found.other, Part::Pair(_));
            pairs_found += u32::from(found.is_some_and(is_pair));
        }
        assert!(pairs_found > 200, "{pairs_found}");
    }
}

//! The product search by trying everything and keeping the least: no filter, no list of candidates, no bound.

use std::collections::HashMap;

use crate::access::{AtomView, Cost, Formula, IndexView, Row, Trial};

use super::formulas::{cost, joined, GATE_OPS, MUL};

/// Whether all sixteen products equal the target's words modulo 2^width.
pub fn fits(a: &Row, b: &Row, target: &Row, width: u32) -> bool {
    (0..16).all(|i| product_word(a[i], b[i], width) == target[i])
}

/// a × b modulo 2^width.
pub fn product_word(a: u64, b: u64, width: u32) -> u64 {
    let product = u128::from(a) * u128::from(b);
    (product & ((1 << width) - 1)) as u64
}

/// The sixteen products modulo 2^width.
pub fn product(a: &Row, b: &Row, width: u32) -> Row {
    std::array::from_fn(|i| product_word(a[i], b[i], width))
}

/// Whether the candidates' rule says "used" for the first words p and t.
pub fn is_used(p: u64, t: u64, width: u32) -> bool {
    let modulus = 1u128 << width;
    let (p, t) = (u128::from(p) % modulus, u128::from(t) % modulus);
    if p == 0 {
        return t != 0;
    }
    let z = p.trailing_zeros();
    z <= 8 || t % (1 << z) != 0
}

/// All slots, ascending by first word, then by slot.
pub fn order_list(first_words: &[u64]) -> Vec<usize> {
    let mut slots: Vec<usize> = (0..first_words.len()).collect();
    slots.sort_unstable_by_key(|&slot| (first_words[slot], slot));
    slots
}

/// The candidates for p and t, if the rule says "used".
pub fn candidates(first_words: &[u64], p: u64, t: u64, width: u32) -> Option<Vec<usize>> {
    let mut slots = order_list(first_words);
    slots.retain(|&slot| product_word(p, first_words[slot], width) == t);
    is_used(p, t, width).then_some(slots)
}

/// Whether any two atoms fit, or an atom and a pair: by their rows, whatever they cost and in whatever order they are tried.
pub fn anything_fits(target: &Row, atoms: &[Row], pairs: &[Row], width: u32) -> bool {
    let mut others = atoms.iter().chain(pairs);
    others.any(|other| atoms.iter().any(|atom| fits(atom, other, target, width)))
}

/// What a search reads of a bank and an index, and its width. Recorded costs are not read.
#[derive(Clone, Copy)]
pub struct Written<'a> {
    pub atoms: &'a [AtomView],
    pub index: &'a IndexView,
    pub width: u32,
}

impl Written<'_> {
    /// The search's answer: all trials in their order, and of those that fit the one that is strictly better than each before it and
    /// than which none after it is.
    pub fn try_everything(&self, target: &Row) -> Option<Trial> {
        let pairs = self.pair_trials(target);
        self.least(self.atom_trials().chain(pairs), target)
    }

    /// The same of two atoms alone.
    pub fn least_two_atoms(&self, target: &Row) -> Option<Trial> {
        self.least(self.atom_trials(), target)
    }

    /// A trial replaces what is kept if it fits and is strictly better.
    fn least(&self, trials: impl Iterator<Item = Trial>, target: &Row) -> Option<Trial> {
        let mut kept: Option<(Cost, Trial)> = None;
        for trial in trials {
            if !self.fits(trial, target) {
                continue;
            }
            let cost = self.cost(trial);
            if kept.is_none_or(|(least, _)| cost < least) {
                kept = Some((cost, trial));
            }
        }
        kept.map(|(_, trial)| trial)
    }

    /// All trials that fit, in their order.
    pub fn fitting(&self, target: &Row) -> Vec<Trial> {
        let trials = self.atom_trials().chain(self.pair_trials(target));
        trials.filter(|&trial| self.fits(trial, target)).collect()
    }

    /// The first atom and pair that fit.
    pub fn first_pair(&self, target: &Row) -> Option<Trial> {
        let mut trials = self.pair_trials(target);
        trials.find(|&trial| self.fits(trial, target))
    }

    /// Every atom with every atom.
    fn atom_trials(&self) -> impl Iterator<Item = Trial> {
        let count = self.atoms.len();
        (0..count).flat_map(move |a| (0..count).map(move |b| Trial::Atoms(a, b)))
    }

    /// Every atom with every pair: by ascending (first word, slot) where the rule says "used" for the first words of atom and target, by
    /// slot otherwise.
    fn pair_trials(&self, target: &Row) -> impl Iterator<Item = Trial> + '_ {
        let (order, width, t) = (&self.index.order, self.width, target[0]);
        let of_atom = move |(a, atom): (usize, &AtomView)| {
            let used = is_used(atom.row[0], t, width);
            let slot = move |place: usize| if used { order[place] } else { place };
            (0..order.len()).map(move |place| Trial::AtomPair(a, slot(place)))
        };
        self.atoms.iter().enumerate().flat_map(of_atom)
    }

    pub fn fits(&self, trial: Trial, target: &Row) -> bool {
        let [left, right] = self.rows(trial);
        fits(left, right, target, self.width)
    }

    /// The rows that a trial multiplies.
    fn rows(&self, trial: Trial) -> [&Row; 2] {
        match trial {
            Trial::Atoms(a, b) => [&self.atoms[a].row, &self.atoms[b].row],
            Trial::AtomPair(a, s) => [&self.atoms[a].row, &self.index.rows[s]],
        }
    }

    /// The whole formula: a, b, Mul, or a, b, c, gate, Mul.
    pub fn written_out(&self, trial: Trial) -> Formula {
        let formula = |slot: usize| &self.atoms[slot].formula;
        match trial {
            Trial::Atoms(a, b) => joined(formula(a), formula(b), MUL),
            Trial::AtomPair(a, s) => {
                let [gate, b, c] = self.index.pairs[s];
                let pair = joined(formula(b), formula(c), GATE_OPS[gate]);
                joined(formula(a), &pair, MUL)
            }
        }
    }

    pub fn cost(&self, trial: Trial) -> Cost {
        cost(&self.written_out(trial))
    }

    /// The answer for every target that has one, all found in one walk over the trials.
    pub fn all_answers(&self) -> HashMap<Row, Trial> {
        let mut kept: HashMap<Row, (Cost, Trial)> = HashMap::new();
        for trial in self.atom_trials() {
            keep(&mut kept, self.product(trial), self.cost(trial), trial);
        }
        for a in 0..self.atoms.len() {
            for (target, (cost, _, slot)) in self.pairs_of_atom(a) {
                keep(&mut kept, target, cost, Trial::AtomPair(a, slot));
            }
        }
        let answers = kept.into_iter();
        answers.map(|(row, (_, trial))| (row, trial)).collect()
    }

    /// For one atom, the least pair that fits for each target: by cost, then in the order of the trials.
    fn pairs_of_atom(&self, a: usize) -> HashMap<Row, (Cost, u64, usize)> {
        let p = self.atoms[a].row[0];
        let mut least = HashMap::new();
        for (slot, row) in self.index.rows.iter().enumerate() {
            let trial = Trial::AtomPair(a, slot);
            let target = self.product(trial);
            let used = is_used(p, target[0], self.width);
            let key = (self.cost(trial), if used { row[0] } else { 0 }, slot);
            let kept = least.entry(target).or_insert(key);
            *kept = key.min(*kept);
        }
        least
    }

    fn product(&self, trial: Trial) -> Row {
        let [left, right] = self.rows(trial);
        product(left, right, self.width)
    }
}

/// Keeps a trial for its target if it is strictly better than what is kept.
fn keep(kept: &mut HashMap<Row, (Cost, Trial)>, target: Row, cost: Cost, trial: Trial) {
    let held = kept.entry(target).or_insert((cost, trial));
    if cost < held.0 {
        *held = (cost, trial);
    }
}

#[cfg(test)]
mod tests {
    use std::collections::HashMap;

    use super::{anything_fits, product, Written};
    use crate::access::{self, AtomView, IndexView, Row, Trial};
    use crate::inputs::Inputs;
    use crate::made::lent;
    use crate::made::rows::few_rows;

    /// A few atoms and pairs of few rows, and the width.
    fn made(inputs: &mut Inputs, turn: u32) -> (Vec<AtomView>, IndexView, u32) {
        let width = 1 + turn % 5;
        let rows = few_rows(inputs, width + turn % 2);
        let mut some = |most: u64| -> Vec<Row> {
            let count = inputs.below(most);
            (0..count).map(|_| inputs.one_of(&rows)).collect()
        };
        let (atom_rows, pair_rows) = (some(7), some(30));
        let atom = |row| lent::any_atom(inputs, row, width);
        let atoms: Vec<AtomView> = atom_rows.into_iter().map(atom).collect();
        let index = lent::any_index(inputs, atoms.len(), pair_rows);
        (atoms, index, width)
    }

    /// A row that something fits, or any.
    fn target(inputs: &mut Inputs, written: &Written<'_>) -> Row {
        if written.atoms.is_empty() || inputs.below(8) == 0 {
            return inputs.row(written.width);
        }
        let a = &written.atoms[inputs.below(written.atoms.len() as u64) as usize];
        let others = written.atoms.iter().map(|atom| atom.row);
        let others: Vec<Row> = others.chain(written.index.rows.clone()).collect();
        product(&a.row, &inputs.one_of(&others), written.width)
    }

    /// Something is kept exactly if anything fits; nothing that fits is better, and all that fits before it is dearer.
    #[test]
    fn the_least() {
        let inputs = &mut Inputs::from_seed(8);
        let mut kept = [0; 3];
        for turn in 0..4000 {
            let (atoms, index, width) = made(inputs, turn);
            let written = Written {
                atoms: &atoms,
                index: &index,
                width,
            };
            let target = target(inputs, &written);
            let fitting = written.fitting(&target);
            let rows: Vec<Row> = atoms.iter().map(|atom| atom.row).collect();
            let fits = anything_fits(&target, &rows, &index.rows, width);
            assert_eq!(fits, !fitting.is_empty());
            let least = fitting.iter().min_by_key(|&&trial| written.cost(trial));
            let found = written.try_everything(&target);
            assert_eq!(found, least.copied());
            assert_eq!(written.all_answers().get(&target).copied(), found);
            kept[match found {
                None => 0,
                Some(Trial::Atoms(..)) => 1,
                Some(Trial::AtomPair(..)) => 2,
            }] += 1;
        }
        assert!(kept.iter().all(|&count| count > 200), "{kept:?}");
    }

    /// The stack machine's cost of each written-out formula is `compute_cost` of its tree.
    #[test]
    fn costs() {
        let inputs = &mut Inputs::from_seed(9);
        let mut costs = HashMap::new();
        for turn in 0..400 {
            let (atoms, index, width) = made(inputs, turn);
            let written = Written {
                atoms: &atoms,
                index: &index,
                width,
            };
            let target = [0; 16];
            for trial in written.atom_trials().chain(written.pair_trials(&target)) {
                let cost = written.cost(trial);
                assert_eq!(cost, access::compute_cost(&written.written_out(trial)));
                *costs.entry(cost).or_insert(0) += 1;
            }
        }
        assert!(costs.len() > 100, "{}", costs.len());
    }

    /// Over rows below 2^width the originals' loops, each to its end, keep the same.
    #[test]
    fn originals() {
        let inputs = &mut Inputs::from_seed(10);
        for turn in (0..4000).step_by(2) {
            let (atoms, index, width) = made(inputs, turn);
            let written = Written {
                atoms: &atoms,
                index: &index,
                width,
            };
            let target = target(inputs, &written);
            let least = access::least_products(&[target], &atoms, &index, width)[0];
            assert_eq!(least, written.try_everything(&target));
            let two_atoms = access::two_atoms(&[target], &atoms, width)[0];
            assert_eq!(two_atoms, written.least_two_atoms(&target));
        }
    }
}

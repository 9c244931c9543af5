//! The product search: beside trying everything and keeping the least; beside the originals' two loops, each to its end; and beside what
//! the originals show, with the two differences that docs/DIFFERENCES.md has, each recognised by rule.

use oracle::access::{self, Cost, Row, Trial};
use oracle::inputs::Inputs;
use oracle::spec::product::{self as spec, Written};
use simjaldek::lent::{self, WrittenAtoms, WrittenPairs};
use simjaldek::{AtomSlot, PairSlot, Product, Refusal};

use crate::report::{Kind, Known, Report};
use crate::searches::{reaches, Asked};

/// Up to so many trials, all that fit are looked at for what came up.
const TRIALS: usize = 200_000;
const MANY_FIT: usize = 1000;

/// Our answer for arrays as they are.
pub fn ask(
    width: u32,
    atoms: WrittenAtoms<'_>,
    pairs: WrittenPairs<'_>,
    target: &[u64],
) -> Result<Option<Trial>, Refusal> {
    let found = lent::product_search(width, atoms, pairs, target)?;
    Ok(match found {
        Product::Atoms(AtomSlot(a), AtomSlot(b)) => Some(Trial::Atoms(a as usize, b as usize)),
        Product::AtomPair(AtomSlot(a), PairSlot(s)) => {
            Some(Trial::AtomPair(a as usize, s as usize))
        }
        Product::Nothing => None,
    })
}

/// What the originals have for a target.
#[derive(Clone, Copy)]
struct Rust {
    /// Layer 1's cheapest two atoms.
    two_atoms: Option<Trial>,
    /// Layer 2's first atom and pair.
    first_pair: Option<Trial>,
    /// Both, each to its end.
    least: Option<Trial>,
}

impl Asked<'_> {
    /// So many product searches.
    pub fn products(&self, inputs: &mut Inputs, report: &mut Report, turns: usize) {
        let targets: Vec<Row> = (0..turns).map(|_| self.target(inputs)).collect();
        let lent = self.lent;
        let two_atoms = access::two_atoms(&targets, &lent.atoms, lent.width);
        let pairs = access::product_loops(&targets, &self.rows, &lent.index.rows, lent.width);
        let least = access::least_products(&targets, &lent.atoms, &lent.index, lent.width);
        for (turn, target) in targets.iter().enumerate() {
            let rust = Rust {
                two_atoms: two_atoms[turn],
                first_pair: pairs[turn],
                least: least[turn],
            };
            self.product(report, target, rust);
        }
    }

    fn written(&self) -> Written<'_> {
        Written {
            atoms: &self.lent.atoms,
            index: &self.lent.index,
            width: self.lent.width,
        }
    }

    /// Mostly a product of an atom and a pair, sometimes with a word changed; else of two atoms, zeros, even, a constant or any.
    fn target(&self, inputs: &mut Inputs) -> Row {
        let (width, pairs) = (self.lent.width, &self.lent.index.rows);
        let choice = inputs.below(12);
        match choice {
            0 => return inputs.row(width),
            1 => return [inputs.word_of_width(width); 16],
            2 => return [0; 16],
            _ if self.rows.is_empty() => return [0; 16],
            _ => {}
        }
        let pairs = if pairs.is_empty() { &self.rows } else { pairs };
        let atom = inputs.one_of(&self.rows);
        let mut target = match choice {
            3 | 4 => spec::product(&atom, &inputs.one_of(&self.rows), width),
            5 => even(inputs, width, pairs),
            _ => spec::product(&atom, &inputs.one_of(pairs), width),
        };
        if choice == 6 {
            target[inputs.below(16) as usize] = inputs.word_of_width(width);
        }
        target
    }

    /// Compares one search.
    fn product(&self, report: &mut Report, target: &Row, rust: Rust) {
        let width = self.lent.width;
        let ours = ask(width, self.atoms(), self.pairs(), target);
        let plain = self.written().try_everything(target);
        let input = (width, &self.lent.atoms, &self.lent.index, target);
        report.compare(Kind::ProductTrials, &input, &ours, &Ok(plain));
        let Ok(ours) = ours else {
            return;
        };
        // what a known difference asks of ours
        let ours_is_plain = ours == plain;
        if ours_is_plain && ours != rust.least && self.is_missed(target, ours) {
            report.known(Kind::LeastProduct, Known::D1);
        } else {
            report.compare(Kind::LeastProduct, &input, &ours, &rust.least);
        }
        if rust.two_atoms.is_some() {
            if ours_is_plain && self.is_cheaper_pair(ours, rust.two_atoms) {
                report.known(Kind::TwoAtoms, Known::D2);
            } else {
                report.compare(Kind::TwoAtoms, &input, &ours, &rust.two_atoms);
            }
        } else {
            self.without_two_atoms(report, target, ours_is_plain, ours, rust.first_pair);
        }
        self.reach(report, target, ours);
    }

    /// Where no two atoms fit: whether a product exists. Which one is D2's, if ours is cheaper.
    fn without_two_atoms(
        &self,
        report: &mut Report,
        target: &Row,
        ours_is_plain: bool,
        ours: Option<Trial>,
        rust: Option<Trial>,
    ) {
        let input = (self.lent.width, &self.lent.atoms, &self.lent.index, target);
        let kind = Kind::ProductLoop;
        if ours == rust {
            report.compare(kind, &input, &ours, &rust);
        } else if ours_is_plain && self.is_missed(target, ours) {
            report.known(kind, Known::D1);
        } else if ours_is_plain && self.is_cheaper_pair(ours, rust) {
            report.known(kind, Known::D2);
        } else {
            report.compare(kind, &input, &ours, &rust);
        }
    }

    /// D1: an atom and a pair whose first word is at or above 2^w, where the filter is used: the Rust doesn't try it.
    fn is_missed(&self, target: &Row, ours: Option<Trial>) -> bool {
        let Some(Trial::AtomPair(atom, pair)) = ours else {
            return false;
        };
        let width = self.lent.width;
        reaches(self.lent.index.rows[pair][0], width)
            && spec::is_used(self.rows[atom][0], target[0], width)
    }

    /// D2: an atom and a pair, strictly cheaper than what the Rust shows.
    fn is_cheaper_pair(&self, ours: Option<Trial>, rust: Option<Trial>) -> bool {
        let (Some(ours), Some(rust)) = (ours, rust) else {
            return false;
        };
        matches!(ours, Trial::AtomPair(..)) && self.cost(ours) < self.cost(rust)
    }

    /// By the originals, over the tree.
    fn cost(&self, trial: Trial) -> Cost {
        access::compute_cost(&self.written().written_out(trial))
    }

    /// Counts an answer, and what else fits.
    fn reach(&self, report: &mut Report, target: &Row, found: Option<Trial>) {
        let kinds = [
            ("products: nothing", found.is_none()),
            (
                "products: two atoms",
                matches!(found, Some(Trial::Atoms(..))),
            ),
            (
                "products: an atom and a pair",
                matches!(found, Some(Trial::AtomPair(..))),
            ),
        ];
        report.reach_each(&kinds);
        let Some(found) = found else {
            return;
        };
        let (atoms, pairs) = (self.rows.len(), self.lent.index.rows.len());
        if atoms * (atoms + pairs) <= TRIALS {
            self.reach_fitting(report, target, found);
        }
    }

    fn reach_fitting(&self, report: &mut Report, target: &Row, found: Trial) {
        let written = self.written();
        let fitting = written.fitting(target);
        let least = written.cost(found);
        let ties: Vec<Trial> = fitting
            .iter()
            .copied()
            .filter(|&trial| written.cost(trial) == least)
            .collect();
        let size_alone = |trial: &Trial| written.cost(*trial)[0] == least[0];
        let first_by_size = fitting.iter().copied().find(size_alone);
        let two_atoms = matches!(fitting[0], Trial::Atoms(..));
        let is_pair = matches!(found, Trial::AtomPair(..));
        let slot_first = |&trial: &Trial| match (trial, found) {
            (Trial::AtomPair(a, s), Trial::AtomPair(b, t)) => a == b && s < t,
            _ => false,
        };
        let all = [
            ("products: one trial fits", fitting.len() == 1),
            ("products: a thousand trials fit", fitting.len() >= MANY_FIT),
            ("products: several of the least cost", ties.len() > 1),
            ("products: not the first that fits", fitting[0] != found),
            (
                "products: a pair, though two atoms fit",
                is_pair && two_atoms,
            ),
            (
                "products: another would have the least size first",
                first_by_size != Some(found),
            ),
            (
                "products: a lesser slot of the same cost comes later",
                ties.iter().any(slot_first),
            ),
        ];
        report.reach_each(&all);
    }
}

/// Words that are 0 or 2^(width - 1): half of 2^width times one of the rows.
fn even(inputs: &mut Inputs, width: u32, rows: &[Row]) -> Row {
    spec::product(&[1 << (width - 1); 16], &inputs.one_of(rows), width)
}

#[cfg(test)]
mod tests {
    use super::Asked;
    use crate::searches::Lent;
    use oracle::access::Trial;
    use oracle::differences::known::{CHEAPER_PAIR, LATER_PAIR, LENT};
    use oracle::differences::Setting;
    use oracle::inputs::Inputs;

    /// Asks the searcher over a bank and its index.
    fn ask<T>(setting: Setting, question: impl FnOnce(&Asked<'_>) -> T) -> T {
        let lent = Lent {
            atoms: setting.atoms,
            index: setting.index,
            width: setting.width,
        };
        question(&Asked::new(&mut Inputs::from_seed(0), &lent))
    }

    /// D1's lent rows: only the pair that the Rust misses passes for D1.
    #[test]
    fn d1_is_recognised() {
        let d1 = &LENT[0];
        let is_missed = |trial| ask(d1.setting(), |asked| asked.is_missed(&d1.row(), trial));
        assert!(is_missed(Some(d1.answer)));
        assert!(!is_missed(None) && !is_missed(Some(Trial::Atoms(0, 0))));
        // its first word is below 2^w
        let other = &LENT[2];
        assert!(!ask(other.setting(), |asked| {
            asked.is_missed(&other.row(), Some(other.answer))
        }));
    }

    /// D2's inputs of both cases: our answer is cheaper; the other way round it isn't, nor against itself.
    #[test]
    fn d2_is_recognised() {
        for input in CHEAPER_PAIR.iter().chain(&LATER_PAIR) {
            let setting = Setting::new(input.bank().bank(), 500, input.width);
            let (ours, rust) = (Some(input.answer), input.rust);
            ask(setting, |asked| {
                assert!(asked.is_cheaper_pair(ours, rust));
                assert!(!asked.is_cheaper_pair(rust, ours) && !asked.is_cheaper_pair(ours, ours));
                assert!(!asked.is_cheaper_pair(ours, None) && !asked.is_cheaper_pair(None, rust));
            });
        }
    }
}

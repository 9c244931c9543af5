//! Lent banks and indexes, and the candidates, with the difference D1 that docs/DIFFERENCES.md has, recognised by rule. The product
//! searches over them stand in `products`.

use oracle::access::{self, AtomView, IndexView, Row};
use oracle::inputs::Inputs;
use oracle::made::lent::{any_atom, any_index};
use oracle::made::rows::{few_rows, near_one_of};
use oracle::spec::product as spec;
use simjaldek::lent::{self, WrittenAtoms, WrittenPairs};
use simjaldek::{Refusal, ATOMS_MAX};

use crate::any_width;
use crate::buffers::{extra, garbage_u32, AtomBuffers, PairBuffers};
use crate::report::{Kind, Known, Report};

/// Searches and lists of candidates for each lent bank; of so many pairs fewer.
const TURNS: usize = 16;
const FEW_TURNS: usize = 2;
const MANY_PAIRS: usize = 10_000;
/// The atoms that are made, at most, but for a full bank now and then; and the pairs.
const MADE_ATOMS: u64 = 8;
const MADE_PAIRS: u64 = 40;

/// A bank and an index, and the width of a search.
pub struct Lent {
    pub atoms: Vec<AtomView>,
    pub index: IndexView,
    pub width: u32,
}

/// Atoms and pairs that no build made: any formulas, any pairs' words, and rows that have nothing to do with them; mostly of few kinds, so
/// that many trials fit, with words beyond the width here and there.
pub fn made(inputs: &mut Inputs) -> Lent {
    let width = small_width(inputs);
    let beyond = inputs.one_of(&[0, 0, 1, 2]);
    let word_width = (width + beyond).min(64);
    let rows = match inputs.below(4) {
        0 => (0..9).map(|_| inputs.row(word_width)).collect(),
        _ => few_rows(inputs, word_width),
    };
    let count = match inputs.below(64) {
        0 => ATOMS_MAX as u64,
        _ => inputs.below(MADE_ATOMS + 1),
    };
    let atom = |_| {
        let row = near_one_of(inputs, &rows);
        any_atom(inputs, row, width)
    };
    let atoms: Vec<AtomView> = (0..count).map(atom).collect();
    let count = inputs.below(MADE_PAIRS + 1);
    let pair_rows = (0..count).map(|_| near_one_of(inputs, &rows)).collect();
    Lent {
        index: any_index(inputs, atoms.len(), pair_rows),
        atoms,
        width,
    }
}

/// Mostly 1 to 4.
fn small_width(inputs: &mut Inputs) -> u32 {
    match inputs.below(4) {
        0 => any_width(inputs),
        _ => 1 + inputs.below(4) as u32,
    }
}

/// Candidates and searches over a lent bank and index.
pub fn compare(inputs: &mut Inputs, report: &mut Report, lent: &Lent) {
    let asked = Asked::new(inputs, lent);
    asked.products(inputs, report, turns(lent));
    for _ in 0..turns(lent) {
        asked.candidates(inputs, report);
    }
}

/// Product searches alone.
pub fn compare_products(inputs: &mut Inputs, report: &mut Report, lent: &Lent) {
    Asked::new(inputs, lent).products(inputs, report, turns(lent));
}

fn turns(lent: &Lent) -> usize {
    if lent.index.rows.len() > MANY_PAIRS {
        FEW_TURNS
    } else {
        TURNS
    }
}

/// A lent bank and index as both sides are asked.
pub struct Asked<'a> {
    pub lent: &'a Lent,
    pub rows: Vec<Row>,
    first_words: Vec<u64>,
    atoms: AtomBuffers,
    pairs: PairBuffers,
}

impl<'a> Asked<'a> {
    pub fn new(inputs: &mut Inputs, lent: &'a Lent) -> Self {
        Asked {
            lent,
            rows: lent.atoms.iter().map(|atom| atom.row).collect(),
            first_words: lent.index.rows.iter().map(|row| row[0]).collect(),
            atoms: AtomBuffers::new(inputs, &lent.atoms),
            pairs: PairBuffers::new(inputs, &lent.index),
        }
    }

    pub fn atoms(&self) -> WrittenAtoms<'_> {
        self.atoms.lend(self.rows.len())
    }

    pub fn pairs(&self) -> WrittenPairs<'_> {
        self.pairs.lend(self.first_words.len())
    }

    /// Compares one list of candidates.
    fn candidates(&self, inputs: &mut Inputs, report: &mut Report) {
        let width = self.lent.width;
        let (p, t) = self.words(inputs);
        let (used, list) = access::candidates(&self.first_words, p, t, width);
        report.reach("candidates: not used", !used);
        report.reach("candidates: some listed", !list.is_empty());
        let rust = used.then_some(list);
        let places = self.first_words.len() + extra(inputs);
        let mut buffer = garbage_u32(inputs, places);
        let before = buffer.clone();
        let found = lent::candidates(width, self.pairs().ordered(), p, t, &mut buffer);
        let ours = (found, buffer);
        let expected = spec::candidates(&self.first_words, p, t, width);
        if self.is_d1_list(expected.as_deref(), rust.as_deref())
            && ours == listed(expected.as_deref(), &before)
        {
            report.known(Kind::Candidates, Known::D1);
            return;
        }
        let input = (width, &self.first_words, p, t);
        let theirs = listed(rust.as_deref(), &before);
        report.compare(Kind::Candidates, &input, &ours, &theirs);
    }

    /// D1: the Rust's list is the plain statement's without the slots whose first word is at or above 2^w, of which there are some.
    fn is_d1_list(&self, expected: Option<&[usize]>, rust: Option<&[usize]>) -> bool {
        let (Some(expected), Some(rust)) = (expected, rust) else {
            return false;
        };
        let is_below = |slot: &&usize| !reaches(self.first_words[**slot], self.lent.width);
        let below = expected.iter().filter(is_below);
        rust.len() < expected.len() && below.eq(rust)
    }

    /// p and t below 2^w: p of an atom, a power of two or any; t a product of p, or any.
    fn words(&self, inputs: &mut Inputs) -> (u64, u64) {
        let width = self.lent.width;
        let p = match inputs.below(4) {
            0 => inputs.word_of_width(width),
            1 => 1 << inputs.below(u64::from(width)),
            _ if self.rows.is_empty() => 0,
            _ => spec::product_word(inputs.one_of(&self.rows)[0], 1, width),
        };
        if self.first_words.is_empty() || inputs.below(4) == 0 {
            return (p, inputs.word_of_width(width));
        }
        let word = inputs.one_of(&self.first_words);
        (p, spec::product_word(p, word, width))
    }
}

/// Whether a word is not below 2^width.
pub fn reaches(word: u64, width: u32) -> bool {
    u128::from(word) >> width != 0
}

/// What a list of candidates, or "not used", leaves of a buffer, and the count.
fn listed(slots: Option<&[usize]>, before: &[u32]) -> (Result<Option<usize>, Refusal>, Vec<u32>) {
    let mut buffer = before.to_vec();
    for (place, &slot) in buffer.iter_mut().zip(slots.unwrap_or(&[])) {
        *place = slot as u32;
    }
    (Ok(slots.map(<[usize]>::len)), buffer)
}

#[cfg(test)]
mod tests {
    use super::{any_atom, any_index, Asked, Lent};
    use oracle::inputs::Inputs;

    /// D1's lent rows: the Rust lists fewer.
    #[test]
    fn d1_lists_are_recognised() {
        let inputs = &mut Inputs::from_seed(0);
        let atoms = vec![any_atom(inputs, [1; 16], 1)];
        let rows = vec![[2; 16], [0; 16], [1; 16]];
        let lent = Lent {
            index: any_index(inputs, atoms.len(), rows),
            atoms,
            width: 1,
        };
        let asked = Asked::new(inputs, &lent);
        let is_d1 =
            |expected: &[usize], rust: Option<&[usize]>| asked.is_d1_list(Some(expected), rust);
        assert!(is_d1(&[1, 0], Some(&[1])));
        assert!(!is_d1(&[1, 0], Some(&[0])) && !is_d1(&[1, 0], Some(&[])));
        assert!(!is_d1(&[1, 0], Some(&[1, 0])) && !is_d1(&[1, 0], None));
    }
}

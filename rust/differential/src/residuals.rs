//! The residual search. Over rows below 2^w: beside the originals' loop over `gate_residual` and their maps; where that is short, beside
//! trying everything; and where the index is whole, beside trying all atoms a, b, c and gates without an index. Over other rows, where
//! the originals' residual leaves high bits in place: beside trying everything alone.

use oracle::access::{self, Completion, Part, Row};
use oracle::inputs::Inputs;
use oracle::made::indexes;
use oracle::made::rows::{few_rows, few_words, late_one_of, near, near_one_of, raised};
use oracle::spec::gates::{are_reduced, gate_row, gives};
use oracle::spec::residual as spec;
use simjaldek::lent::{self, Atoms, PairRows};
use simjaldek::{AtomSlot, Completion as Ours, PairSlot, Refusal, ATOMS_MAX, PAIRS_MAX};

use crate::any_width;
use crate::buffers::{flat, longer};
use crate::report::{Kind, Report};

/// Searches over each lent bank; of so many pairs fewer.
const TURNS: usize = 16;
const FEW_TURNS: usize = 2;
const MANY_PAIRS: usize = 10_000;
/// Up to so many rows to look through, everything is tried.
const TRIALS: usize = 100_000;
/// Up to so many atoms, all b and c are tried.
const GIVEN_ATOMS: usize = 18;
/// The atoms that are made, at most, but for a full bank now and then.
const MADE_ATOMS: u64 = 12;
const MADE_PAIRS: u64 = 30;
const OWN_ATOMS: u64 = 7;
/// How often two rows are drawn of which the second is to be below 2^w.
const DRAWS: usize = 4;

/// A bank and an index as they are lent, and the width of the search.
pub struct Lent {
    pub atoms: Vec<Row>,
    pub pairs: Vec<Row>,
    pub width: u32,
    /// Whether the pairs are the whole index of these atoms at this width.
    pub whole: bool,
}

/// Our answer for arrays as they are.
pub fn ask(
    width: u32,
    atoms: Atoms<'_>,
    pairs: PairRows<'_>,
    target: &[u64],
) -> Result<Option<Completion>, Refusal> {
    let (gate, AtomSlot(atom), other) = match lent::residual_search(width, atoms, pairs, target)? {
        Ours::Atoms(gate, a, AtomSlot(b)) => (gate, a, Part::Atom(b as usize)),
        Ours::AtomPair(gate, a, PairSlot(s)) => (gate, a, Part::Pair(s as usize)),
        Ours::Nothing => return Ok(None),
    };
    let (gate, atom) = (gate.number() as usize, atom as usize);
    Ok(Some(Completion { gate, atom, other }))
}

/// Searches over banks and indexes that no build made: any rows, and rows of few kinds with an index of their own.
pub fn compare_made(inputs: &mut Inputs, report: &mut Report) {
    let lent = made(inputs);
    compare(inputs, report, &lent);
    let lent = own(inputs);
    compare(inputs, report, &lent);
}

/// Atoms and pairs out of a few rows, so that rows repeat and hits are common everywhere; here and there words beyond the width.
fn made(inputs: &mut Inputs) -> Lent {
    let width = small_width(inputs);
    let rows = raw_rows(inputs, width);
    let mut draw =
        |count: u64| -> Vec<Row> { (0..count).map(|_| near_one_of(inputs, &rows)).collect() };
    let [atoms, pairs] = [draw(MADE_ATOMS), draw(MADE_PAIRS)];
    let mut lent = Lent {
        atoms,
        pairs,
        width,
        whole: false,
    };
    if inputs.below(32) == 0 {
        let full = (0..ATOMS_MAX).map(|_| near_one_of(inputs, &rows));
        lent.atoms = full.collect();
    } else {
        lent.atoms.truncate(inputs.below(MADE_ATOMS + 1) as usize);
    }
    lent.pairs.truncate(inputs.below(MADE_PAIRS + 1) as usize);
    lent
}

/// A few rows: below 2^w, of one or two bits more, or some of them with other bits from 2^w up.
fn raw_rows(inputs: &mut Inputs, width: u32) -> Vec<Row> {
    let beyond = inputs.one_of(&[0, 0, 1, 2]);
    let mut rows = few_rows(inputs, (width + beyond).min(64));
    if inputs.below(8) == 0 {
        for row in rows.iter_mut().step_by(2) {
            *row = raised(inputs, *row, width);
        }
    }
    rows
}

/// A few atoms, half of the time below 2^w, with an index of their own, seldom cut.
fn own(inputs: &mut Inputs) -> Lent {
    let width = small_width(inputs);
    let rows = raw_rows(inputs, width);
    let count = inputs.below(OWN_ATOMS + 1);
    let mut atoms: Vec<Row> = (0..count).map(|_| inputs.one_of(&rows)).collect();
    if inputs.below(3) == 0 {
        let place = inputs.below(count + 1) as usize;
        atoms.insert(place, nought(inputs, width));
    }
    let mut pairs = indexes::index(&atoms, width, PAIRS_MAX).rows;
    let all = pairs.len();
    if inputs.below(4) == 0 {
        pairs.truncate(inputs.below(all as u64 + 1) as usize);
    }
    Lent {
        whole: pairs.len() == all,
        atoms,
        pairs,
        width,
    }
}

/// A row that is 0 modulo 2^w.
fn nought(inputs: &mut Inputs, width: u32) -> Row {
    let multiple = |few: u64| few.checked_shl(width).unwrap_or(0);
    std::array::from_fn(|_| multiple(inputs.below(3)))
}

/// Mostly 1 to 4.
fn small_width(inputs: &mut Inputs) -> u32 {
    match inputs.below(4) {
        0 => any_width(inputs),
        _ => 1 + inputs.below(4) as u32,
    }
}

/// Searches over a lent bank and index.
pub fn compare(inputs: &mut Inputs, report: &mut Report, lent: &Lent) {
    let turns = if lent.pairs.len() > MANY_PAIRS {
        FEW_TURNS
    } else {
        TURNS
    };
    let targets: Vec<Row> = (0..turns).map(|_| lent.target(inputs)).collect();
    let expected = lent.answers(&targets);
    let (atoms, pairs) = (flat(inputs, &lent.atoms), flat(inputs, &lent.pairs));
    for (target, expected) in targets.into_iter().zip(expected) {
        let atoms = Atoms {
            count: lent.atoms.len(),
            rows: &atoms,
        };
        let pairs = PairRows {
            count: lent.pairs.len(),
            rows: &pairs,
        };
        let ours = ask(lent.width, atoms, pairs, &longer(inputs, &target));
        lent.compare(report, &target, ours, expected);
        lent.reach(report, expected);
    }
}

impl Lent {
    /// The originals' answers over rows below 2^w, those of trying everything over others.
    fn answers(&self, targets: &[Row]) -> Vec<Option<Completion>> {
        if self.is_reduced() {
            return access::completions(targets, &self.atoms, &self.pairs, self.width);
        }
        let answer = |target| self.try_everything(target);
        targets.iter().map(answer).collect()
    }

    fn try_everything(&self, target: &Row) -> Option<Completion> {
        spec::try_everything(target, &self.atoms, &self.pairs, self.width)
    }

    /// Compares our answer with the expected one. Over rows below 2^w that is the originals', and trying everything stands beside it. Where
    /// "nothing" is certain, what the atoms give stands beside both.
    fn compare(
        &self,
        report: &mut Report,
        target: &Row,
        ours: Result<Option<Completion>, Refusal>,
        expected: Option<Completion>,
    ) {
        let input = (self.width, &self.atoms, &self.pairs, target);
        if !self.is_reduced() {
            report.compare(Kind::ResidualTrials, &input, &ours, &Ok(expected));
        } else {
            report.compare(Kind::ResidualSearch, &input, &ours, &Ok(expected));
            if self.trials() <= TRIALS {
                let tried = self.try_everything(target);
                report.compare(Kind::ResidualTrials, &input, &ours, &Ok(tried));
            }
        }
        if self.is_certain() && self.atoms.len() <= GIVEN_ATOMS {
            report.reach("certain, with raw words", !self.is_reduced());
            let given = spec::is_given(target, &self.atoms, self.width);
            let shown = ours.map(|found| found.map(|shown| self.completes(shown, target)));
            let expected = Ok(given.then_some(true));
            report.compare(Kind::ResidualNothing, &input, &shown, &expected);
        }
    }

    /// Whether "nothing" is: with a whole index, where the atoms' rows are below 2^w or one of them is 0 modulo 2^w.
    fn is_certain(&self) -> bool {
        let is_nought = |row: &Row| {
            row.iter()
                .all(|&word| u128::from(word) % (1 << self.width) == 0)
        };
        self.whole && (are_reduced(&self.atoms, self.width) || self.atoms.iter().any(is_nought))
    }

    /// A sum or an xor of two atoms or of an atom and a pair, sometimes with a bit changed; else a constant, few words, or any.
    fn target(&self, inputs: &mut Inputs) -> Row {
        let choice = inputs.below(12);
        if self.atoms.is_empty() || choice < 3 {
            return match choice {
                0 => inputs.row(self.width),
                1 => [inputs.word_of_width(self.width); 16],
                _ => few_words(inputs, self.width),
            };
        }
        let target = self.sum(inputs, choice < 6);
        match inputs.below(6) {
            0 => near(inputs, target, self.width),
            _ => target,
        }
    }

    /// Of an atom with another, or with a pair if there are any: with one below 2^w, which alone can be found, if such are drawn.
    fn sum(&self, inputs: &mut Inputs, two_atoms: bool) -> Row {
        let gate = inputs.one_of(&spec::OUTER_GATES);
        let others = if two_atoms || self.pairs.is_empty() {
            &self.atoms
        } else {
            &self.pairs
        };
        let a = late_one_of(inputs, &self.atoms);
        let draws = [(); DRAWS].map(|()| late_one_of(inputs, others));
        let below = draws.iter().find(|row| are_reduced(&[**row], self.width));
        gate_row(&a, below.unwrap_or(&draws[0]), gate, self.width)
    }

    /// Whether all words of atoms and pairs are below 2^w.
    fn is_reduced(&self) -> bool {
        are_reduced(&self.atoms, self.width) && are_reduced(&self.pairs, self.width)
    }

    /// The rows that are looked through where nothing is found, under one gate.
    fn trials(&self) -> usize {
        self.atoms.len() * (self.atoms.len() + self.pairs.len())
    }

    fn row(&self, part: Part) -> &Row {
        spec::row_of(part, &self.atoms, &self.pairs)
    }

    /// Whether what is shown gives the target.
    fn completes(&self, shown: Completion, target: &Row) -> bool {
        let (a, other) = (&self.atoms[shown.atom], self.row(shown.other));
        gives(a, other, target, shown.gate, self.width)
    }

    /// Counts an answer by its gate and its part, and what else it shows.
    fn reach(&self, report: &mut Report, found: Option<Completion>) {
        let raw = !self.is_reduced();
        report.reach("residual searches: rows with words from 2^w", raw);
        let found_there = raw && found.is_some();
        report.reach("residual searches: found with words from 2^w", found_there);
        let kind = found.map(|found| (found.gate, matches!(found.other, Part::Pair(_))));
        for (name, counted) in ANSWERS {
            report.reach(name, kind == counted);
        }
        let Some(Completion { atom, other, .. }) = found else {
            return;
        };
        let late = 4 * (atom + 1) > 3 * self.atoms.len();
        report.reach("residual searches: an atom of the last quarter", late);
        let below = matches!(other, Part::Atom(b) if b < atom);
        report.reach("residual searches: b below a", below);
        let again = match other {
            Part::Atom(b) => self.atoms[b + 1..].contains(&self.atoms[b]),
            Part::Pair(s) => self.pairs[s + 1..].contains(&self.pairs[s]),
        };
        report.reach("residual searches: the row stands again further on", again);
        let both = matches!(other, Part::Atom(_)) && self.pairs.contains(self.row(other));
        report.reach("residual searches: an atom's row is a pair's too", both);
    }
}

/// The answers by outer gate and whether a pair is named.
const ANSWERS: [(&str, Option<(usize, bool)>); 5] = [
    ("residual searches: nothing", None),
    ("residual searches: Xor, two atoms", Some((2, false))),
    ("residual searches: Xor, atom and pair", Some((2, true))),
    ("residual searches: Add, two atoms", Some((3, false))),
    ("residual searches: Add, atom and pair", Some((3, true))),
];

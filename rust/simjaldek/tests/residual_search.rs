//! The residual search over lent rows: the order of its trials, rows that reach 2^w, and what "nothing" says.

mod common;

use common::{one_variable, p2, repeated};
use simjaldek::lent::{self, Atoms, PairRows};
use simjaldek::{
    bitmask, gate_apply, gate_residual, splitmix64, AtomSlot, Bank, Completion, CompletionAnswer,
    Gate, Index, PairSlot, Points, Row, PAIRS_MAX,
};
use std::collections::HashSet;

/// The answer over these rows.
fn searched(width: u32, atoms: &[Row], pairs: &[Row], target: &Row) -> Completion {
    let (count, rows) = (atoms.len(), atoms.as_flattened());
    let atoms = Atoms { count, rows };
    let (count, rows) = (pairs.len(), pairs.as_flattened());
    let pairs = PairRows { count, rows };
    lent::residual_search(width, atoms, pairs, target).expect("it isn't refused")
}

/// The answer over rows of one word each, at width 8.
fn of_words(atoms: &[u64], pairs: &[u64], target: u64) -> Completion {
    let rows = |words: &[u64]| -> Vec<Row> { words.iter().map(|&word| [word; 16]).collect() };
    searched(8, &rows(atoms), &rows(pairs), &[target; 16])
}

fn two_atoms(gate: Gate, a: u32, b: u32) -> Completion {
    Completion::Atoms(gate, AtomSlot(a), AtomSlot(b))
}

fn atom_and_pair(gate: Gate, a: u32, pair: u32) -> Completion {
    Completion::AtomPair(gate, AtomSlot(a), PairSlot(pair))
}

// ---- the order of the trials

#[test]
fn xor_before_add() {
    // 6 is 1 + 5 from atom 0 on, and 3 ^ 5 only from atom 1 on
    assert_eq!(of_words(&[1, 3, 5], &[], 6), two_atoms(Gate::Xor, 1, 2));
    assert_eq!(of_words(&[1, 5], &[], 6), two_atoms(Gate::Add, 0, 1));
    // a pair under Xor comes before two atoms under Add
    assert_eq!(of_words(&[1, 5], &[7], 6), atom_and_pair(Gate::Xor, 0, 0));
    assert_eq!(
        of_words(&[5, 1], &[9, 7], 6),
        atom_and_pair(Gate::Xor, 1, 1)
    );
}

#[test]
fn bank_before_index() {
    for gate in [Gate::Xor, Gate::Add] {
        // 7 is 1 ^ 6 and 1 + 6; 4 is 1 + 3 and no xor here
        let (other, target) = if gate == Gate::Xor { (6, 7) } else { (3, 4) };
        let found = of_words(&[1, other], &[other], target);
        assert_eq!(found, two_atoms(gate, 0, 1));
        let found = of_words(&[1], &[other], target);
        assert_eq!(found, atom_and_pair(gate, 0, 0));
    }
    // but an atom's pairs come before the next atom
    let found = of_words(&[1, 2, 5], &[6], 7);
    assert_eq!(found, atom_and_pair(Gate::Xor, 0, 0));
    assert_eq!(of_words(&[1, 2, 5], &[], 7), two_atoms(Gate::Xor, 1, 2));
}

#[test]
fn least_slots_of_equal_rows() {
    assert_eq!(
        of_words(&[9, 1, 6, 6, 1], &[], 7),
        two_atoms(Gate::Xor, 1, 2)
    );
    let found = of_words(&[9, 1, 1], &[8, 6, 6], 7);
    assert_eq!(found, atom_and_pair(Gate::Xor, 1, 1));
    assert_eq!(
        of_words(&[9, 1, 1], &[3, 3], 4),
        atom_and_pair(Gate::Add, 1, 0)
    );
}

#[test]
fn an_atom_with_itself() {
    assert_eq!(of_words(&[9, 3], &[], 0), two_atoms(Gate::Xor, 0, 0));
    assert_eq!(of_words(&[9, 3], &[], 6), two_atoms(Gate::Add, 1, 1));
}

// ---- words

#[test]
fn sums_wrap_at_the_width() {
    assert_eq!(of_words(&[200, 100], &[], 44), two_atoms(Gate::Add, 0, 1));
    let found = searched(64, &[[u64::MAX; 16], [2; 16]], &[], &[1; 16]);
    assert_eq!(found, two_atoms(Gate::Add, 0, 1));
}

/// Residuals are reduced: a row that reaches 2^w is completed like its reduced one, and completes none.
#[test]
fn rows_that_reach_the_width() {
    // 257 ^ 4 is 5 modulo 256
    assert_eq!(of_words(&[257, 4], &[], 5), two_atoms(Gate::Xor, 0, 1));
    // what completes 4 is 1 and not 257, so that b is below a
    assert_eq!(of_words(&[4, 257], &[], 5), two_atoms(Gate::Xor, 1, 0));
    assert_eq!(of_words(&[4], &[257], 5), Completion::Nothing);
    // 256 ^ 261 is 5, but what completes 256 is 5, and 261 isn't
    assert_eq!(of_words(&[256], &[261], 5), Completion::Nothing);
    assert_eq!(of_words(&[256, 261], &[], 5), Completion::Nothing);
    assert_eq!(
        of_words(&[256], &[261, 5], 5),
        atom_and_pair(Gate::Xor, 0, 1)
    );
}

/// A row that is the residual but for one bit of one place is not found.
#[test]
fn all_sixteen_words_are_compared() {
    let target: Row = std::array::from_fn(|place| 3 * place as u64);
    let atom = [100; 16];
    for gate in [Gate::Xor, Gate::Add] {
        let right = gate_residual(&target, &atom, gate, 8).expect("width 8");
        let in_bank = two_atoms(gate, 0, 1);
        assert_eq!(searched(8, &[atom, right], &[], &target), in_bank);
        let in_index = atom_and_pair(gate, 0, 0);
        assert_eq!(searched(8, &[atom], &[right], &target), in_index);
        for (place, bit) in (0..16).flat_map(|place| [0, 7, 63].map(|bit| (place, bit))) {
            let mut wrong = right;
            wrong[place] ^= 1 << bit;
            let found = searched(8, &[atom], &[wrong, right], &target);
            assert_eq!(found, atom_and_pair(gate, 0, 1), "{place} {bit}");
            // an atom is completed too, where its bit 63 doesn't count
            let found = searched(8, &[atom, wrong], &[], &target);
            let expected = [Completion::Nothing, two_atoms(gate, 1, 0)];
            assert_eq!(found, expected[usize::from(bit == 63)], "{place} {bit}");
        }
    }
}

#[test]
fn no_atoms_or_no_pairs() {
    assert_eq!(searched(8, &[], &[], &[0; 16]), Completion::Nothing);
    assert_eq!(of_words(&[], &[0, 5], 5), Completion::Nothing);
    assert_eq!(of_words(&[1], &[], 5), Completion::Nothing);
}

/// What lies past the claimed counts isn't read, nor a target's words past the sixteenth; and nothing is written.
#[test]
fn places_past_the_counts() {
    let atom_rows = [[1; 16], [6; 16]].as_flattened().to_vec();
    let pair_rows = [[9; 16], [6; 16]].as_flattened().to_vec();
    let target: Vec<u64> = [vec![7; 16], vec![u64::MAX; 5]].concat();
    let asked = |count, pairs| {
        let atoms = Atoms {
            count,
            rows: &atom_rows,
        };
        let pairs = PairRows {
            count: pairs,
            rows: &pair_rows,
        };
        lent::residual_search(8, atoms, pairs, &target)
    };
    assert_eq!(asked(2, 2), Ok(two_atoms(Gate::Xor, 0, 1)));
    assert_eq!(asked(1, 2), Ok(atom_and_pair(Gate::Xor, 0, 1)));
    assert_eq!(asked(1, 1), Ok(Completion::Nothing));
    assert_eq!(asked(0, 2), Ok(Completion::Nothing));
    assert_eq!(atom_rows, [[1; 16], [6; 16]].as_flattened());
    assert_eq!(pair_rows, [[9; 16], [6; 16]].as_flattened());
}

// ---- trying everything

/// The first trial whose row is the residual, in arithmetic written here.
fn trying_everything(width: u32, atoms: &[Row], pairs: &[Row], target: &Row) -> Completion {
    let slot = |rows: &[Row], row: Row| rows.iter().position(|&other| other == row);
    for gate in [Gate::Xor, Gate::Add] {
        for (a, row) in (0..).zip(atoms) {
            let each = |place: usize| match gate {
                Gate::Xor => target[place] ^ row[place],
                _ => target[place].wrapping_sub(row[place]),
            };
            let wanted: Row = std::array::from_fn(|place| each(place) & bitmask(width));
            if let Some(b) = slot(atoms, wanted) {
                return two_atoms(gate, a, b as u32);
            }
            if let Some(pair) = slot(pairs, wanted) {
                return atom_and_pair(gate, a, pair as u32);
            }
        }
    }
    Completion::Nothing
}

/// Numbers that splitmix64 draws.
struct Draws(u64);

impl Draws {
    fn below(&mut self, bound: u64) -> u64 {
        let (state, word) = splitmix64(self.0);
        self.0 = state;
        word % bound
    }

    fn one_of<T: Copy>(&mut self, all: &[T]) -> T {
        all[self.below(all.len() as u64) as usize]
    }

    /// A row of two words over and over, each within a mask.
    fn row(&mut self, mask: u64) -> Row {
        let words = [(); 2].map(|()| self.below(u64::MAX) & mask);
        repeated(&words)
    }

    fn rows(&mut self, most: u64, mask: u64) -> Vec<Row> {
        let count = self.below(most + 1);
        (0..count).map(|_| self.row(mask)).collect()
    }
}

/// The row that the outer gate gives of the two rows that were found.
fn given(width: u32, found: Completion, atoms: &[Row], pairs: &[Row]) -> Option<Row> {
    let (gate, a, b) = match found {
        Completion::Atoms(gate, a, b) => (gate, a, &atoms[b.0 as usize]),
        Completion::AtomPair(gate, a, pair) => (gate, a, &pairs[pair.0 as usize]),
        Completion::Nothing => return None,
    };
    gate_apply(&atoms[a.0 as usize], b, gate, width).ok()
}

/// What an answer is: its outer gate, and whether a pair completes the atom.
fn kind(answer: Completion) -> usize {
    match answer {
        Completion::Atoms(Gate::Xor, ..) => 0,
        Completion::AtomPair(Gate::Xor, ..) => 1,
        Completion::Atoms(..) => 2,
        Completion::AtomPair(..) => 3,
        Completion::Nothing => 4,
    }
}

/// Rows of few words, so that there are hits of all kinds and rows that repeat; every third bank has words that reach 2^w. What is
/// found gives the target there too.
#[test]
fn answers_are_those_of_trying_everything() {
    let mut draws = Draws(1);
    let mut kinds = [0; 5];
    for round in 0..40_000 {
        let width = draws.one_of(&[1, 2, 3, 4, 8, 64]);
        let few = bitmask(width.min(3));
        let high = 1u64.checked_shl(width).unwrap_or(0);
        let mask = if round % 3 == 0 { few | high } else { few };
        let (atoms, pairs) = (draws.rows(6, mask), draws.rows(6, mask));
        let target = draws.row(few);
        let found = searched(width, &atoms, &pairs, &target);
        let tried = trying_everything(width, &atoms, &pairs, &target);
        assert_eq!(found, tried, "{width} {atoms:?} {pairs:?} {target:?}");
        let row = (found != Completion::Nothing).then_some(target);
        assert_eq!(given(width, found, &atoms, &pairs), row);
        kinds[kind(found)] += 1;
    }
    assert!(kinds.iter().all(|&count| count > 500), "{kinds:?}");
}

// ---- what "nothing" says

/// All rows that an atom gives with an atom, or with a gate of two, under Xor or Add.
fn completed(width: u32, atoms: &[Row]) -> HashSet<Row> {
    let apply = |gate, a: &Row, b: &Row| gate_apply(a, b, gate, width).expect("in range");
    let mut inner: HashSet<Row> = atoms.iter().copied().collect();
    for gate in Gate::ALL {
        for b in atoms {
            inner.extend(atoms.iter().map(|c| apply(gate, b, c)));
        }
    }
    let mut all = HashSet::new();
    for gate in [Gate::Xor, Gate::Add] {
        for a in atoms {
            all.extend(inner.iter().map(|row| apply(gate, a, row)));
        }
    }
    all
}

/// Searches for these targets: how many are found. Nothing is found exactly if no atoms a, b, c and no gates give the target.
fn nothing_exactly(bank: &Bank, targets: impl Iterator<Item = Row>) -> usize {
    let index = Index::build(bank, PAIRS_MAX).expect("a limit in range");
    let atoms: Vec<Row> = bank.atoms().map(|atom| *atom.row()).collect();
    let pairs: Vec<Row> = index.pairs().map(|pair| *pair.row()).collect();
    let completed = completed(bank.width(), &atoms);
    let mut count = 0;
    for target in targets {
        let answer = index.residual_search(&target).expect("words below 2^w");
        let row = given(bank.width(), answer.slots(), &atoms, &pairs);
        assert_eq!(row, completed.contains(&target).then_some(target));
        let nothing = CompletionAnswer::Nothing { certain: true };
        assert_eq!(row.is_none(), answer == nothing);
        count += usize::from(row.is_some());
    }
    count
}

/// All rows of four words over and over.
fn rows_of_four_words(width: u32) -> impl Iterator<Item = Row> {
    let word = move |number: u64, place: u32| number >> (width * place) & bitmask(width);
    (0..1 << (4 * width))
        .map(move |number| repeated(&[0, 1, 2, 3].map(|place| word(number, place))))
}

#[test]
fn nothing_is_true() {
    let found = nothing_exactly(&p2(), rows_of_four_words(2));
    assert_eq!(found, 64, "of 256");
    let wider = Bank::build(&one_variable(3, &[0, 1, 2, 3]), &[0; 16]).unwrap();
    let found = nothing_exactly(&wider, rows_of_four_words(3));
    assert_eq!(found, 819, "of 4096");
    let points = Points::standard(2, 2).unwrap();
    let bank = Bank::build(&points, &[0; 16]).unwrap();
    let found = nothing_exactly(&bank, gates_of_three(&bank, 1000).into_iter());
    assert_eq!(found, 951, "of 1000");
}

/// Rows a with (b g c) of random atoms, under all five outer gates.
fn gates_of_three(bank: &Bank, count: usize) -> Vec<Row> {
    let atoms: Vec<Row> = bank.atoms().map(|atom| *atom.row()).collect();
    let mut draws = Draws(2);
    let mut row = || {
        let [a, b, c] = [(); 3].map(|()| draws.one_of(&atoms));
        let [outer, gate] = [(); 2].map(|()| draws.one_of(&Gate::ALL));
        let inner = gate_apply(&b, &c, gate, bank.width());
        inner.and_then(|inner| gate_apply(&a, &inner, outer, bank.width()))
    };
    (0..count).map(|_| row().expect("in range")).collect()
}

/// The zero row is atom 0's, so that an atom or a pair is found with it under Xor.
#[test]
fn rows_that_are_held() {
    let bank = p2();
    let index = Index::build(&bank, PAIRS_MAX).unwrap();
    for atom in bank.atoms() {
        let found = index.residual_search(atom.row()).unwrap();
        assert_eq!(found.slots(), two_atoms(Gate::Xor, 0, atom.slot().0));
    }
    for pair in index.pairs() {
        let found = index.residual_search(pair.row()).unwrap();
        assert_eq!(found.slots(), atom_and_pair(Gate::Xor, 0, pair.slot().0));
    }
}

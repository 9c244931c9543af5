//! The named inputs of docs/DIFFERENCES.md, asked of our library: each answer must be the specification's. That the Rust's is another is
//! asserted by `oracle::differences`.

use oracle::access::{Row, Trial};
use oracle::differences::gates::{
    rows, Indexed, Searched, APPLIED, COMPLETED, FOUND, INDEX, SEARCH, WIDTH,
};
use oracle::differences::known::{Input, Lent, CHEAPER_PAIR, LATER_PAIR, LENT, MISSED};
use oracle::inputs::Inputs;
use simjaldek::lent::{self, Atoms, Built, PairRows, WrittenPairs};
use simjaldek::{Bank, Points, ATOMS_MAX};

use crate::buffers::{AtomBuffers, IndexBuffers, PairBuffers};
use crate::{products, residuals};

/// Larger than the indexes of all inputs.
const LIMIT: usize = 500;

/// Asks for all of them.
pub fn confirm() {
    for input in MISSED.iter().chain(&CHEAPER_PAIR).chain(&LATER_PAIR) {
        assert_eq!(searched(input), Some(input.answer));
    }
    for lent in &LENT {
        lent_bank(lent);
    }
    lent_candidates(&LENT[0]);
    gates();
    index(&INDEX);
    for case in [SEARCH, FOUND] {
        residual_search(&case);
    }
}

fn lend(rows: &[Row]) -> Atoms<'_> {
    Atoms {
        count: rows.len(),
        rows: rows.as_flattened(),
    }
}

/// The whole index of these atoms, and its count of pairs.
fn built(width: u32, atoms: Atoms<'_>) -> (IndexBuffers, usize) {
    let lengths = [3 * LIMIT, 16 * LIMIT, LIMIT, 4 * (LIMIT + ATOMS_MAX)];
    let mut buffers = IndexBuffers::new(&mut Inputs::from_seed(0), lengths);
    let built = lent::build_index(width, atoms, LIMIT, buffers.lend());
    let Ok(Built { pairs, cut: false }) = built else {
        panic!("{built:?} is no whole index");
    };
    (buffers, pairs)
}

/// Bank, index and search of D1 and D2.
fn searched(input: &Input) -> Option<Trial> {
    let bank = input.bank();
    let words = std::array::from_fn(|place| [bank.points[place][0], 0, 0, 0, 0, 0]);
    let points = Points::new(bank.num_vars, bank.width, words).expect("words below 2^w");
    let bank = Bank::build(&points, &bank.target).expect("words below 2^w");
    let (index, count) = built(input.index_width, bank.lend());
    let pairs = WrittenPairs {
        count,
        words: &index.pairs,
        rows: &index.rows,
        order: &index.order,
    };
    let found = products::ask(input.width, bank.lend_written(), pairs, &input.row());
    found.expect("words below 2^w")
}

/// D1 and D2 over atoms and pairs that no build made.
fn lent_bank(lent: &Lent) {
    let inputs = &mut Inputs::from_seed(0);
    let setting = lent.setting();
    let atoms = AtomBuffers::new(inputs, &setting.atoms);
    let pairs = PairBuffers::new(inputs, &setting.index);
    let (atoms, pairs) = (
        atoms.lend(setting.rows.len()),
        pairs.lend(setting.index.all),
    );
    let found = products::ask(lent.width, atoms, pairs, &lent.row());
    assert_eq!(found, Ok(Some(lent.answer)));
}

/// The candidates of D1's lent rows.
fn lent_candidates(lent: &Lent) {
    let setting = lent.setting();
    let pairs = PairBuffers::new(&mut Inputs::from_seed(0), &setting.index);
    let pairs = pairs.lend(setting.index.all).ordered();
    let (p, t) = (setting.rows[0][0], lent.row()[0]);
    let mut list = [9];
    let count = lent::candidates(lent.width, pairs, p, t, &mut list);
    assert_eq!((count, list), (Ok(Some(1)), [0]));
}

/// D3 of gates, of what matches, and of the inverse of Xor.
fn gates() {
    for case in APPLIED {
        let [a, b] = case.words.map(|word| [word; 16]);
        let gate = case.gate as u32;
        assert_eq!(lent::gate_apply(&a, &b, gate, WIDTH), Ok([case.given; 16]));
        for target in [case.given, case.rust] {
            let matches = lent::gate_matches(&a, &b, &[target; 16], gate, WIDTH);
            assert_eq!(matches, Ok(target == case.given));
        }
    }
    let [target, a] = COMPLETED.words.map(|word| [word; 16]);
    let residual = lent::gate_residual(&target, &a, COMPLETED.gate as u32, WIDTH);
    assert_eq!(residual, Ok([COMPLETED.given; 16]));
}

fn index(case: &Indexed) {
    let (index, count) = built(WIDTH, lend(&rows(case.atoms)));
    let numbers = case.pairs.as_flattened().iter().map(|&n| n as u32);
    assert!(numbers.eq(index.pairs[..3 * count].iter().copied()));
    assert_eq!(&index.rows[..16 * count], rows(case.words).as_flattened());
}

fn residual_search(case: &Searched) {
    let (atoms, listed) = (rows(case.atoms), rows(case.pairs));
    let pairs = PairRows {
        count: listed.len(),
        rows: listed.as_flattened(),
    };
    let found = residuals::ask(WIDTH, lend(&atoms), pairs, &[case.target; 16]);
    assert_eq!(found, Ok(case.answer));
}

#[cfg(test)]
mod tests {
    #[test]
    fn confirmed() {
        super::confirm();
    }
}

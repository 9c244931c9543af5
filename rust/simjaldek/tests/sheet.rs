//! The specification's sheet and the inputs of docs/DIFFERENCES.md, asked through the binding.

mod common;

use common::{one_variable, p2, repeated, IndexBuffers, OwnAtoms, OwnPairs};
use simjaldek::lent::{self, Built, Pairs};
use simjaldek::{
    compute_cost, AtomSlot, Bank, Cost, FormulaBuf, Gate, Index, Pair, PairSlot, Product, Refusal,
    PAIRS_MAX,
};

fn texts(bank: &Bank) -> Vec<String> {
    bank.atoms().map(|atom| atom.to_string()).collect()
}

#[test]
fn p1() {
    let bank = Bank::build(&one_variable(1, &[0, 1]), &[0; 16]).unwrap();
    let costs: Vec<_> = bank.atoms().map(|atom| atom.cost().to_string()).collect();
    assert_eq!(costs, ["1 0 1", "1 0 1", "1 0 1", "2 0 2"]);
    assert_eq!(texts(&bank), ["c0", "c1", "v0", "v0 !"]);
    let index = Index::build(&bank, 10).unwrap();
    assert!(index.is_empty() && !index.is_cut());
}

#[test]
fn p2_last_atom() {
    let bank = p2();
    assert_eq!(bank.len(), 14);
    let last = bank.atom(AtomSlot(13)).unwrap();
    assert_eq!(last.formula().to_string(), "v0 v0 * !");
    assert_eq!(last.row(), &repeated(&[3, 2]));
    assert_eq!(bank.atoms().last(), Some(last));
    assert_eq!(bank.find_row(&repeated(&[3, 2])), Ok(Some(last)));
    assert_eq!(bank.find_row(&repeated(&[0, 0, 0, 1])), Ok(None));
    assert_eq!(bank.atom(AtomSlot(14)), None);
    assert_eq!(bank.atom(AtomSlot(u32::MAX)), None);
}

#[test]
fn p3() {
    let bank = p2();
    let whole = Index::build(&bank, PAIRS_MAX).unwrap();
    assert_eq!((whole.len(), whole.is_cut()), (36, false));
    let first = whole.pair(PairSlot(0)).unwrap();
    assert_eq!(told(first), (Gate::And, AtomSlot(1), AtomSlot(6)));
    assert_eq!(first.row(), &repeated(&[1, 0]));
    assert_eq!(whole.pair(PairSlot(36)), None);
    assert_eq!(Index::build(&bank, 36), Ok(whole.clone()));
    for limit in [0, 1, 35] {
        let index = Index::build(&bank, limit).unwrap();
        assert_eq!((index.len(), index.is_cut()), (limit, true));
        let same = |(a, b): (Pair<'_>, Pair<'_>)| told(a) == told(b) && a.row() == b.row();
        assert!(index.pairs().zip(whole.pairs()).all(same));
    }
}

/// Gate and atoms.
fn told(pair: Pair<'_>) -> (Gate, AtomSlot, AtomSlot) {
    let (b, c) = pair.atoms();
    (pair.gate(), b.slot(), c.slot())
}

#[test]
fn order_list_ascends() {
    let bank = p2();
    let index = Index::build(&bank, PAIRS_MAX).unwrap();
    let keys: Vec<_> = index
        .order()
        .map(|pair| (pair.row()[0], pair.slot()))
        .collect();
    assert_eq!(keys.len(), index.len());
    assert!(keys.windows(2).all(|two| two[0] < two[1]));
}

#[test]
fn p4() {
    let cost = |text: &str| {
        let formula: FormulaBuf = text.parse().unwrap();
        compute_cost(1, formula.as_formula())
    };
    let numbers = |size, products, depth| {
        Ok(Cost {
            size,
            products,
            depth,
        })
    };
    assert_eq!(cost("v0 v0 *"), numbers(5, 1, 2));
    assert_eq!(cost("c3 v0 *"), numbers(3, 0, 2));
}

/// The first words of the candidates among all words of a width, or none for "not used". Places beyond the count stay.
fn candidate_words(p: u64, t: u64, width: u32) -> Option<Vec<u64>> {
    let count = 1usize << width;
    let rows: Vec<u64> = (0..count as u64).flat_map(|word| [word; 16]).collect();
    let order: Vec<u32> = (0..count as u32).collect();
    let pairs = Pairs {
        count,
        rows: &rows,
        order: &order,
    };
    let mut list = vec![u32::MAX; count + 1];
    let found = lent::candidates(width, pairs, p, t, &mut list).unwrap();
    let written = found.unwrap_or(0);
    assert!(list[written..].iter().all(|&place| place == u32::MAX));
    found.map(|found| list[..found].iter().map(|&slot| slot as u64).collect())
}

#[test]
fn p5_to_p7() {
    assert_eq!(candidate_words(6, 4, 8), Some(vec![86, 214]));
    assert_eq!(candidate_words(6, 3, 8), Some(vec![]));
    assert_eq!(candidate_words(0, 0, 8), None);
    assert_eq!(candidate_words(0, 1, 8), Some(vec![]));
    let every_256th: Vec<u64> = (2..65_536).step_by(256).collect();
    assert_eq!(candidate_words(256, 512, 16), Some(every_256th));
    assert_eq!(candidate_words(512, 512, 16), None);
    assert_eq!(candidate_words(512, 256, 16), Some(vec![]));
}

#[test]
fn p8() {
    let rows: Vec<u64> = [0, 1, u64::MAX - 1, u64::MAX]
        .into_iter()
        .flat_map(|word| [word; 16])
        .collect();
    let pairs = Pairs {
        count: 4,
        rows: &rows,
        order: &[0, 1, 2, 3],
    };
    let mut list = [0; 4];
    let found = lent::candidates(64, pairs, 1, u64::MAX, &mut list);
    assert_eq!((found, list), (Ok(Some(1)), [3, 0, 0, 0]));
}

#[test]
fn candidates_of_an_index() {
    let bank = p2();
    let index = Index::build(&bank, PAIRS_MAX).unwrap();
    let all: Vec<Pair<'_>> = index
        .order()
        .filter(|pair| pair.row()[0] * 2 % 4 == 2)
        .collect();
    assert!(!all.is_empty());
    assert_eq!(index.candidates(2, 2), Ok(Some(all)));
    assert_eq!(index.candidates(2, 1), Ok(Some(vec![])));
    assert_eq!(index.candidates(0, 0), Ok(None));
}

#[test]
fn p9() {
    let points = one_variable(8, &std::array::from_fn::<u64, 16, _>(|i| i as u64));
    let held = |target: u64| {
        let bank = Bank::build(&points, &[target; 16]).unwrap();
        let atom = bank.find_row(&[254; 16]).unwrap().expect("held");
        (atom.slot(), atom.to_string())
    };
    let (slot, text) = held(0);
    assert_eq!(text, "c1 !");
    assert_eq!(held(254), (slot, "c254".to_owned()));
}

#[test]
fn p10() {
    let mut target = [0; 16];
    target[..7].fill(1);
    target[7] = 4;
    let points = one_variable(8, &std::array::from_fn::<u64, 16, _>(|i| i as u64));
    let bank = Bank::build(&points, &target).unwrap();
    let held = |word: u64| bank.find_row(&[word; 16]).unwrap().is_some();
    assert!(held(5) && held(1) && !held(4));
}

#[test]
fn target_word_256() {
    let build = |word| Bank::build(&one_variable(8, &[0]), &[word; 16]).map(|_| ());
    assert_eq!(build(256), Err(Refusal::Word));
    assert_eq!(build(255), Ok(()));
}

/// The answer at a width over the bank's whole index of another width, which has so many pairs: by lent arrays, since an [`Index`] has
/// its bank's width and searches at it.
fn search(bank: &Bank, index: (u32, usize), width: u32, target: &[u64]) -> Product {
    let (index_width, pairs) = index;
    let mut index = IndexBuffers::new(pairs);
    let built = lent::build_index(index_width, bank.lend(), pairs, index.lend());
    assert_eq!(built, Ok(Built { pairs, cut: false }));
    let target = repeated(target);
    lent::product_search(width, bank.lend_written(), index.written(pairs), &target).unwrap()
}

/// A bank of one variable, target zeros.
fn bank_at(width: u32, words: &[u64]) -> Bank {
    Bank::build(&one_variable(width, words), &[0; 16]).unwrap()
}

/// An index of a greater width than the search's.
#[test]
fn d1() {
    let answer = |atom, pair| Product::AtomPair(AtomSlot(atom), PairSlot(pair));
    let bank = bank_at(3, &[0, 1, 2, 7]);
    assert_eq!(bank.len(), 17);
    assert_eq!(search(&bank, (3, 206), 2, &[1, 0, 1, 2]), answer(11, 52));
    // the cheapest is of a pair with first word 1, which the Rust doesn't leave out; it was the first, (1, 30), that had 7
    let bank = bank_at(3, &[0, 2, 7]);
    assert_eq!(search(&bank, (3, 127), 2, &[3, 1, 1]), answer(3, 28));
    let bank = bank_at(3, &[0, 1, 2, 3]);
    assert_eq!(search(&bank, (3, 208), 2, &[3, 1, 3, 3]), answer(1, 74));
    let zeros = bank_at(5, &[0]);
    assert_eq!(zeros.len(), 6);
    assert_eq!(search(&zeros, (5, 7), 4, &[11]), answer(1, 3));
}

/// The same banks with an index of the search's width: the pairs are below 2^w, also where the bank isn't, and the Rust's loop over them
/// finds the same (crates/compare/data/searches.txt).
#[test]
fn d1_wants_a_wider_index() {
    let answer = |atom, pair| Product::AtomPair(AtomSlot(atom), PairSlot(pair));
    let bank = bank_at(3, &[0, 1, 2, 7]);
    assert_eq!(search(&bank, (2, 46), 2, &[1, 0, 1, 2]), answer(11, 28));
    let bank = bank_at(3, &[0, 1, 2, 3]);
    assert_eq!(search(&bank, (2, 46), 2, &[3, 1, 3, 3]), answer(1, 33));
    let zeros = bank_at(5, &[0]);
    assert_eq!(search(&zeros, (4, 10), 4, &[11]), answer(1, 6));
}

#[test]
fn d1_with_lent_rows() {
    let atoms = OwnAtoms::of_rows(&[[1; 16]]);
    let pairs = OwnPairs::new(&[(Gate::Add, 0, 0, [2; 16])]);
    let answer = Product::AtomPair(AtomSlot(0), PairSlot(0));
    let found = lent::product_search(1, atoms.lend(), pairs.lend(), &[0; 16]);
    assert_eq!(found, Ok(answer));
}

/// The first two atoms are `c1` and slot 6 or 8; the cheapest are shown.
#[test]
fn d2() {
    let first = Bank::build(&one_variable(2, &[0, 2]), &[0; 16]).unwrap();
    assert_eq!(first.len(), 7);
    for (bank, target, slots, text) in [
        (first, [1, 3], (3, 5), "c3 v0 ! *"),
        (p2(), [0, 1], (4, 4), "v0 v0 *"),
    ] {
        let index = Index::build(&bank, PAIRS_MAX).unwrap();
        let answer = index.product_search(&repeated(&target)).unwrap();
        let product = Product::Atoms(AtomSlot(slots.0), AtomSlot(slots.1));
        assert_eq!(answer.slots(), product);
        let (formula, cost) = answer.postfix_and_cost().expect("a product");
        assert_eq!(formula.to_string(), text);
        assert_eq!(compute_cost(1, formula.as_formula()), Ok(cost));
    }
}

//! Points, bank, index and log that own what they were told: what can't be mixed up, and what a caller still can.

mod common;

use common::{one_variable, p2, repeated, IndexBuffers};
use simjaldek::lent::{self, Built};
use simjaldek::{
    compute_cost, splitmix64, Atom, Bank, Close, Completion, CompletionAnswer, FormulaBuf, Gate,
    Index, Log, Pair, PairSlot, Points, Product, ProductAnswer, RankedRule, Row, Token, Window,
    PAIRS_MAX,
};

fn parsed(text: &str) -> FormulaBuf {
    text.parse().expect("tokens")
}

#[test]
fn told_once() {
    let points = Points::standard(3, 16).unwrap();
    let bank = Bank::build(&points, &[0; 16]).unwrap();
    let index = Index::build(&bank, 10).unwrap();
    assert_eq!(bank.points(), &points);
    assert_eq!((bank.num_vars(), bank.width()), (3, 16));
    assert_eq!((index.bank(), index.width()), (&bank, 16));
    assert_eq!(
        Points::new(3, 16, *points.words()),
        Ok(points.clone()),
        "the standard points as a caller's own"
    );
}

/// Over lent arrays the index of one width can be searched at another, and pairs are missing in silence. An [`Index`] has no width but
/// its bank's: the wrong one can't be handed in (see the examples of [`Index`] that don't compile).
#[test]
fn index_of_another_width() {
    let bank = Bank::build(&one_variable(3, &[0, 1, 2, 3]), &[0; 16]).unwrap();
    let index = Index::build(&bank, PAIRS_MAX).unwrap();
    let mut narrow = IndexBuffers::new(1000);
    let Ok(Built { pairs, cut: false }) = lent::build_index(1, bank.lend(), 1000, narrow.lend())
    else {
        panic!("a whole index of width 1");
    };
    let missed = |pair: Pair<'_>| {
        let found = index.product_search(pair.row()).unwrap();
        assert_ne!(found.slots(), Product::Nothing);
        let mixed = lent::product_search(3, bank.lend_written(), narrow.written(pairs), pair.row());
        mixed == Ok(Product::Nothing)
    };
    assert!(index.pairs().any(missed));
    let missed = |pair: Pair<'_>| {
        let found = index.residual_search(pair.row()).unwrap();
        assert_ne!(found.slots(), Completion::Nothing);
        let pairs = narrow.pairs(pairs).unordered();
        let mixed = lent::residual_search(3, bank.lend(), pairs, pair.row());
        mixed == Ok(Completion::Nothing)
    };
    assert!(index.pairs().any(missed));
}

/// A slot of one bank read in another is another formula; an atom stays its bank's.
#[test]
fn atoms_of_two_banks() {
    let points = Points::standard(1, 8).unwrap();
    let banks = [[0; 16], [77; 16]].map(|target| Bank::build(&points, &target).unwrap());
    let last = banks[1].atoms().last().expect("a bank has atoms");
    assert_eq!(last.to_string(), "c77");
    assert_eq!(banks[0].atom(last.slot()), None);
    let first = |bank| Bank::atoms(bank).next().expect("a bank has atoms");
    assert_eq!(first(&banks[0]), first(&banks[0]));
    assert_ne!(first(&banks[0]), first(&banks[1]));
}

/// What remains: a row of other points is sixteen words like any others. A formula is searched for at the bank's own points.
#[test]
fn row_of_other_points() {
    let (points, other) = (
        one_variable(8, &[0, 1, 2, 3]),
        one_variable(8, &[5, 6, 7, 9]),
    );
    let formula = parsed("v0 v0 * v0 +");
    let bank = Bank::build_for(&points, formula.as_formula()).unwrap();
    let index = Index::build(&bank, PAIRS_MAX).unwrap();
    let right = index.product_for(formula.as_formula()).unwrap();
    let row = points.row(formula.as_formula()).unwrap();
    assert_eq!(bank.points().row(formula.as_formula()), Ok(row));
    assert_eq!(index.product_search(&row), Ok(right));
    assert_eq!(row_of(&points, right.postfix()), Some(row));
    let slipped = other.row(formula.as_formula()).unwrap();
    let wrong = index.product_search(&slipped).unwrap();
    assert_ne!(row_of(&points, wrong.postfix()), Some(row));
    let right = index.residual_for(formula.as_formula()).unwrap();
    assert_eq!(index.residual_search(&row), Ok(right));
    assert_eq!(row_of(&points, right.postfix()), Some(row));
    let wrong = index.residual_search(&slipped).unwrap();
    assert_ne!(row_of(&points, wrong.postfix()), Some(row));
}

/// The row of what was found, if anything was.
fn row_of(points: &Points, found: Option<FormulaBuf>) -> Option<Row> {
    Some(points.row(found?.as_formula()).expect("a formula"))
}

#[test]
fn products_written_out() {
    let bank = p2();
    let index = Index::build(&bank, PAIRS_MAX).unwrap();
    let atoms: Vec<Atom<'_>> = bank.atoms().collect();
    for pair in index.pairs() {
        let (b, c) = pair.atoms();
        let text = format!("{b} {c} {}", pair.gate().token());
        assert_eq!(pair.to_string(), text);
        assert_eq!(
            bank.points().row(pair.postfix().as_formula()),
            Ok(*pair.row())
        );
        let answer = ProductAnswer::AtomPair(atoms[4], pair);
        let product = answer.postfix().expect("a product");
        assert_eq!(product.to_string(), format!("{} {text} *", atoms[4]));
        let cost = compute_cost(1, product.as_formula()).expect("a formula");
        assert_eq!(answer.cost(), Some(cost));
        assert_eq!(answer.postfix_and_cost(), Some((product, cost)));
        let slots = Product::AtomPair(atoms[4].slot(), pair.slot());
        assert_eq!(answer.slots(), slots);
    }
    let answer = ProductAnswer::Atoms(atoms[4], atoms[13]);
    let product = answer.postfix().expect("a product");
    assert_eq!(product.as_formula().tokens().last(), Some(Token::Mul));
    assert_eq!(product.to_string(), "v0 v0 v0 * ! *");
}

#[test]
fn completions_written_out() {
    let bank = p2();
    let index = Index::build(&bank, PAIRS_MAX).unwrap();
    let atoms: Vec<Atom<'_>> = bank.atoms().collect();
    for (gate, sign) in [(Gate::Xor, "^"), (Gate::Add, "+")] {
        for pair in index.pairs() {
            let answer = CompletionAnswer::AtomPair(gate, atoms[4], pair);
            let completion = answer.postfix().expect("a completion");
            assert_eq!(completion.to_string(), format!("v0 {pair} {sign}"));
            let cost = compute_cost(1, completion.as_formula()).expect("a formula");
            assert_eq!(answer.cost(), Some(cost));
            assert_eq!(answer.postfix_and_cost(), Some((completion, cost)));
            let slots = Completion::AtomPair(gate, atoms[4].slot(), pair.slot());
            assert_eq!(answer.slots(), slots);
        }
        let answer = CompletionAnswer::Atoms(gate, atoms[13], atoms[4]);
        let completion = answer.postfix().expect("a completion");
        assert_eq!(completion.to_string(), format!("v0 v0 * ! v0 {sign}"));
        let slots = Completion::Atoms(gate, atoms[13].slot(), atoms[4].slot());
        assert_eq!(answer.slots(), slots);
    }
}

/// Every row that is found is the row of what is written out.
#[test]
fn answers_have_the_row() {
    let points = Points::standard(2, 8).unwrap();
    for text in [
        "v0 v0 * v0 v1 * +",
        "v0 v1 + v0 v1 - + *",
        "c3 v0 * c6 *",
        "v0 v1 ^ v0 v1 & c2 * +",
        "v0 v0 * v0 v1 * + v0 v1 * + v1 v1 * + v0 v1 ^ +",
        "v0 v1 * v0 v1 | ^ v1 v1 * ^",
    ] {
        let formula = points.read(text).unwrap().formula;
        let bank = Bank::build_for(&points, formula.as_formula()).unwrap();
        let index = Index::build(&bank, PAIRS_MAX).unwrap();
        let product = index.product_for(formula.as_formula()).unwrap();
        let completion = index.residual_for(formula.as_formula()).unwrap();
        let row = points.row(formula.as_formula()).unwrap();
        let found = [product.postfix(), completion.postfix()];
        let rows = found.map(|found| row_of(&points, found));
        let nothing = ProductAnswer::Nothing { certain: true };
        assert_eq!(rows, [(product != nothing).then_some(row), Some(row)]);
    }
}

#[test]
fn nothing_and_how_certain() {
    let bank = p2();
    let target = repeated(&[0, 1, 2, 0]);
    for limit in [0, 35, 36, 37] {
        let index = Index::build(&bank, limit).unwrap();
        let answer = index.product_search(&target).unwrap();
        assert_eq!(
            answer,
            ProductAnswer::Nothing {
                certain: limit >= 36
            }
        );
        assert_eq!((answer.postfix(), answer.cost()), (None, None));
    }
    let target = repeated(&[0, 1, 0, 0]);
    for limit in [0, 35, 36, 37] {
        let index = Index::build(&bank, limit).unwrap();
        let answer = index.residual_search(&target).unwrap();
        assert_eq!(
            answer,
            CompletionAnswer::Nothing {
                certain: limit >= 36
            }
        );
        let none = (answer.postfix(), answer.cost(), answer.slots());
        assert_eq!(none, (None, None, Completion::Nothing));
    }
    // what a cut index lacks is missed
    let (whole, cut) = (
        Index::build(&bank, 36).unwrap(),
        Index::build(&bank, 0).unwrap(),
    );
    let missed = |pair: Pair<'_>| {
        let uncertain = CompletionAnswer::Nothing { certain: false };
        cut.residual_search(pair.row()) == Ok(uncertain)
    };
    assert!(whole.pairs().any(missed));
}

/// Seeds come last: the rows without them come first and in the same order, and at most eight follow.
#[test]
fn seeds_of_a_target() {
    let points = Points::standard(2, 16).unwrap();
    let plain = Bank::build(&points, &[0; 16]).unwrap();
    for target in points
        .words()
        .map(|point| std::array::from_fn(|i| point[0] >> i))
    {
        let seeded = Bank::build(&points, &target).unwrap();
        assert!((plain.len()..=plain.len() + 8).contains(&seeded.len()));
        for (atom, seeded) in plain.atoms().zip(seeded.atoms()) {
            assert_eq!(atom.row(), seeded.row());
            assert!(seeded.cost() <= atom.cost());
        }
    }
}

/// A bank that was built for another target lacks a formula's seeds, and "nothing" speaks of that bank alone.
#[test]
fn bank_of_another_target() {
    let points = Points::standard(1, 8).unwrap();
    let formula = points.read("v0 c77 &").unwrap().formula;
    let found = |bank: Bank| {
        let index = Index::build(&bank, PAIRS_MAX).unwrap();
        let answer = index.product_for(formula.as_formula()).unwrap();
        assert_eq!(
            answer.postfix().is_none(),
            answer == ProductAnswer::Nothing { certain: true }
        );
        let completion = index.residual_for(formula.as_formula()).unwrap();
        assert_eq!(
            completion.postfix().is_none(),
            completion == CompletionAnswer::Nothing { certain: true }
        );
        [answer.postfix(), completion.postfix()].map(|found| found.map(|found| found.to_string()))
    };
    let own = Bank::build_for(&points, formula.as_formula()).unwrap();
    let texts = ["c1 v0 c77 & *", "c0 v0 c77 & ^"].map(|text| Some(text.to_owned()));
    assert_eq!(found(own), texts);
    assert_eq!(found(Bank::build(&points, &[0; 16]).unwrap()), [None, None]);
}

/// What the crate's first paragraph says of rows: `v0 v1 & v2 &` under a mask of one bit has the zero row for three of the sixteen
/// bits, and seven others have a product that differs from it elsewhere.
#[test]
fn rows_say_no_more() {
    let points = Points::standard(3, 16).unwrap();
    let (mut zero, mut differing) = (Vec::new(), Vec::new());
    for bit in 0..16 {
        let text = format!("v0 v1 & v2 & c{} &", 1 << bit);
        let formula = points.read(&text).unwrap().formula;
        let bank = Bank::build_for(&points, formula.as_formula()).unwrap();
        let index = Index::build(&bank, PAIRS_MAX).unwrap();
        let answer = index.product_for(formula.as_formula()).unwrap();
        if points.row(formula.as_formula()) == Ok([0; 16]) {
            zero.push(bit);
            let product = answer.postfix().map(|product| product.to_string());
            assert_eq!(product, Some("c0 c0 *".to_owned()));
            let completion = index.residual_for(formula.as_formula()).unwrap();
            let completion = completion.postfix().expect("zero with itself");
            assert_eq!(completion.to_string(), "c0 c0 ^");
            assert!(differs(&points, &formula, &completion));
        }
        if answer
            .postfix()
            .is_some_and(|product| differs(&points, &formula, &product))
        {
            differing.push(bit);
        }
    }
    assert_eq!(zero, [1, 4, 10]);
    assert_eq!(differing, [1, 4, 7, 9, 10, 11, 12, 13, 14, 15]);
}

/// Whether two formulas differ at one of a hundred random inputs.
fn differs(points: &Points, a: &FormulaBuf, b: &FormulaBuf) -> bool {
    let mut state = 5;
    let mut word = || {
        let (next, word) = splitmix64(state);
        state = next;
        word
    };
    (0..100).any(|_| {
        let words: [u64; 3] = std::array::from_fn(|_| word());
        points.evaluate(a.as_formula(), &words) != points.evaluate(b.as_formula(), &words)
    })
}

#[test]
fn views_of_copies_are_not_equal() {
    let points = Points::standard(1, 8).unwrap();
    let bank = Bank::build(&points, &[0; 16]).unwrap();
    let (index, copy) = (
        Index::build(&bank, 10).unwrap(),
        Index::build(&bank, 10).unwrap(),
    );
    assert_eq!(index, copy);
    let (pair, again) = (index.pair(PairSlot(3)), index.pair(PairSlot(3)));
    assert_eq!(pair, again);
    assert_ne!(pair, copy.pair(PairSlot(3)));
    assert_ne!(pair, index.pair(PairSlot(4)));
}

/// Windows go by the rules' places. A [`Log`] keeps both together; a state that is stored can be gone on with by rules in other places, and
/// then each goes on from what another has seen.
#[test]
fn log_of_rules_in_other_places() {
    let formulas = ["v0", "v1"].map(parsed);
    let window = Window {
        least: 2,
        records: 2,
    };
    let [first, second] = [1, 2].map(|rank| RankedRule {
        rank,
        formula: formulas[rank as usize - 1].as_formula(),
        window,
    });
    let mut log = Log::new(2, 8, &[first, second]).unwrap();
    log.open();
    log.record(&[1, 0]).unwrap();
    let mut other = Log::new(2, 8, &[second, first]).unwrap();
    other.resume(log.state());
    assert_ne!(log, other);
    assert_eq!(log.record(&[1, 0]), Ok(Some(Close { number: 2, rank: 1 })));
    assert_eq!(other.record(&[1, 0]), Ok(None));
}

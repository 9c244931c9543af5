//! An index that borrows its bank, its pairs, and the searches over both.

use crate::formula::operation;
use crate::lent::{self, IndexArrays, Pairs, WrittenPairs};
use crate::{
    Atom, AtomSlot, Bank, Completion, CompletionAnswer, Formula, FormulaBuf, FormulaError, Gate,
    PairSlot, Product, ProductAnswer, Refusal, Row, PAIRS_MAX, ROW_WORDS,
};
use std::fmt;

/// The numbers of a pair: gate, b, c.
const PAIR_NUMBERS: usize = 3;

/// An index of a bank: the rows that a gate makes of two atoms and that the bank doesn't hold, each once. It is built at the bank's
/// width and searches this bank alone.
///
/// It can't outlive its bank:
///
/// ```compile_fail,E0597
/// use simjaldek::{Bank, Index, Points};
///
/// let points = Points::standard(1, 8).unwrap();
/// let index = {
///     let bank = Bank::build(&points, &[0; 16]).unwrap();
///     Index::build(&bank, 10).unwrap()
/// };
/// println!("{}", index.len());
/// ```
///
/// Neither a width nor another bank can be handed to a search:
///
/// ```compile_fail,E0061
/// # use simjaldek::{Bank, Index, Points};
/// # let points = Points::standard(1, 8).unwrap();
/// # let bank = Bank::build(&points, &[0; 16]).unwrap();
/// # let index = Index::build(&bank, 10).unwrap();
/// index.product_search(16, &[0; 16]);
/// ```
///
/// ```compile_fail,E0061
/// # use simjaldek::{Bank, Index, Points};
/// # let points = Points::standard(1, 8).unwrap();
/// # let bank = Bank::build(&points, &[0; 16]).unwrap();
/// # let index = Index::build(&bank, 10).unwrap();
/// let other = Bank::build(&points, &[1; 16]).unwrap();
/// index.product_search(&other, &[0; 16]);
/// ```
///
/// ```
/// # use simjaldek::{Bank, Index, Points};
/// # let points = Points::standard(1, 8).unwrap();
/// # let bank = Bank::build(&points, &[0; 16]).unwrap();
/// # let index = Index::build(&bank, 10).unwrap();
/// index.product_search(&[0; 16])?;
/// # Ok::<(), simjaldek::Refusal>(())
/// ```
#[derive(Clone, Debug, PartialEq, Eq)]
pub struct Index<'b> {
    bank: &'b Bank,
    pairs: Vec<u32>,
    rows: Vec<u64>,
    order: Vec<u32>,
    cut: bool,
}

impl<'b> Index<'b> {
    /// Lists at most `limit` pairs of the bank's atoms. Refuses 3.
    pub fn build(bank: &'b Bank, limit: usize) -> Result<Self, Refusal> {
        // A limit above the most is refused whatever the arrays' lengths.
        let room = limit.min(PAIRS_MAX);
        let mut index = Index {
            bank,
            pairs: vec![0; PAIR_NUMBERS * room],
            rows: vec![0; ROW_WORDS * room],
            order: vec![0; room],
            cut: false,
        };
        let arrays = IndexArrays {
            pairs: &mut index.pairs,
            rows: &mut index.rows,
            order: &mut index.order,
            work: &mut vec![0; lent::work_len(room)],
        };
        let built = lent::build_index(bank.width(), bank.lend(), limit, arrays)?;
        index.keep(built.pairs);
        index.cut = built.cut;
        Ok(index)
    }

    /// Drops the places beyond the count.
    fn keep(&mut self, count: usize) {
        self.pairs.truncate(PAIR_NUMBERS * count);
        self.rows.truncate(ROW_WORDS * count);
        self.order.truncate(count);
        self.pairs.shrink_to_fit();
        self.rows.shrink_to_fit();
        self.order.shrink_to_fit();
    }

    /// The bank.
    pub fn bank(&self) -> &'b Bank {
        self.bank
    }

    /// The width in bits: the bank's.
    pub fn width(&self) -> u32 {
        self.bank.width()
    }

    /// How many pairs.
    pub fn len(&self) -> usize {
        self.order.len()
    }

    /// Whether there is no pair.
    pub fn is_empty(&self) -> bool {
        self.order.is_empty()
    }

    /// Whether a new row found no place, so that pairs are missing.
    pub fn is_cut(&self) -> bool {
        self.cut
    }

    /// All pairs, by slot.
    pub fn pairs(&self) -> impl ExactSizeIterator<Item = Pair<'_>> {
        (0..self.len()).map(|slot| Pair { index: self, slot })
    }

    /// The pair of a slot; none for one that is not below the count. A slot is a number of one index: [`Pair`] can't be taken to
    /// another, and is the better thing to keep.
    pub fn pair(&self, slot: PairSlot) -> Option<Pair<'_>> {
        let slot = slot.0 as usize;
        (slot < self.len()).then_some(Pair { index: self, slot })
    }

    /// The order list: all pairs, ascending by (first row word, slot).
    pub fn order(&self) -> impl ExactSizeIterator<Item = Pair<'_>> {
        self.order.iter().map(|&slot| self.listed(PairSlot(slot)))
    }

    /// A pair that the library named.
    fn listed(&self, slot: PairSlot) -> Pair<'_> {
        self.pair(slot).expect("a listed pair")
    }

    /// The cheapest product, of two atoms or of an atom and a listed pair, that has this row: by the cost of the whole formula written out,
    /// which [`ProductAnswer::cost`] tells; among equals the first in the order of the search. Refuses 5.
    ///
    /// The row must be one of the bank's own points ([`Points::row`](crate::Points::row)): a row of other points is words like any others, and what is
    /// found for it says nothing about the formula that it came from. [`product_for`](Index::product_for) can't go wrong so.
    pub fn product_search(&self, target: &Row) -> Result<ProductAnswer<'_>, Refusal> {
        let (atoms, pairs) = (self.bank.lend_written(), self.lend_written());
        let product = lent::product_search(self.width(), atoms, pairs, target)?;
        Ok(self.of_product(product))
    }

    /// The product search for a formula's row at the bank's points. Refuses 6.
    ///
    /// A bank that was built for another target lacks this formula's seeds: [`Bank::build`] says what that means.
    pub fn product_for(&self, formula: Formula<'_>) -> Result<ProductAnswer<'_>, FormulaError> {
        let target = self.bank.points().row(formula)?;
        Ok(self.product_search(&target)?)
    }

    /// A product's slots as atoms of the bank and pairs of this index.
    fn of_product(&self, product: Product) -> ProductAnswer<'_> {
        match product {
            Product::Atoms(a, b) => ProductAnswer::Atoms(self.held(a), self.held(b)),
            Product::AtomPair(a, pair) => ProductAnswer::AtomPair(self.held(a), self.listed(pair)),
            Product::Nothing => ProductAnswer::Nothing { certain: !self.cut },
        }
    }

    /// The first xor, else the first sum, of an atom with an atom or a pair that has this row: atoms ascending, for each first the atoms,
    /// then the pairs. In the order of the search, not the cheapest: a row that an atom or a pair has by itself is found as `c0` with it
    /// under Xor. Refuses 5.
    ///
    /// The row must be one of the bank's own points, as for [`product_search`](Index::product_search);
    /// [`residual_for`](Index::residual_for) can't go wrong there.
    pub fn residual_search(&self, target: &Row) -> Result<CompletionAnswer<'_>, Refusal> {
        let (atoms, pairs) = (self.bank.lend(), self.lend().unordered());
        let completion = lent::residual_search(self.width(), atoms, pairs, target)?;
        Ok(self.of_completion(completion))
    }

    /// The residual search for a formula's row at the bank's points. Refuses 6.
    ///
    /// A bank that was built for another target lacks this formula's seeds: [`Bank::build`] says what that means.
    pub fn residual_for(&self, formula: Formula<'_>) -> Result<CompletionAnswer<'_>, FormulaError> {
        let target = self.bank.points().row(formula)?;
        Ok(self.residual_search(&target)?)
    }

    /// A completion's slots as atoms of the bank and pairs of this index.
    fn of_completion(&self, completion: Completion) -> CompletionAnswer<'_> {
        match completion {
            Completion::Atoms(gate, a, b) => {
                CompletionAnswer::Atoms(gate, self.held(a), self.held(b))
            }
            Completion::AtomPair(gate, a, pair) => {
                CompletionAnswer::AtomPair(gate, self.held(a), self.listed(pair))
            }
            Completion::Nothing => CompletionAnswer::Nothing { certain: !self.cut },
        }
    }

    /// An atom that the library named.
    fn held(&self, slot: AtomSlot) -> Atom<'b> {
        self.bank.atom(slot).expect("an atom of the bank")
    }

    /// The pairs whose first word f has p × f = t modulo 2^w, in order-list order. `None` is "not used": p and t are 0, or there are more
    /// than 256 solutions, and any pair may fit; an empty list says that none does. Refuses 5.
    pub fn candidates(&self, p: u64, t: u64) -> Result<Option<Vec<Pair<'_>>>, Refusal> {
        let mut list = vec![0; self.len()];
        let count = lent::candidates(self.width(), self.lend(), p, t, &mut list)?;
        let pair = |&slot: &u32| self.listed(PairSlot(slot));
        Ok(count.map(|count| list[..count].iter().map(pair).collect()))
    }

    /// The rows and the order list, lent.
    pub fn lend(&self) -> Pairs<'_> {
        self.lend_written().ordered()
    }

    /// Gates, atoms, rows and the order list, lent.
    pub fn lend_written(&self) -> WrittenPairs<'_> {
        WrittenPairs {
            count: self.len(),
            words: &self.pairs,
            rows: &self.rows,
            order: &self.order,
        }
    }
}

/// A pair of an index: a gate of two atoms.
#[derive(Clone, Copy)]
pub struct Pair<'i> {
    index: &'i Index<'i>,
    /// Below the index's count.
    slot: usize,
}

impl<'i> Pair<'i> {
    /// Its number in the index.
    pub fn slot(self) -> PairSlot {
        PairSlot(self.slot as u32)
    }

    /// Its gate.
    pub fn gate(self) -> Gate {
        Gate::from_number(self.numbers()[0]).expect("a listed gate")
    }

    /// Its two atoms, b and c.
    pub fn atoms(self) -> (Atom<'i>, Atom<'i>) {
        let numbers = self.numbers();
        let atom = |number| self.index.held(AtomSlot(number));
        (atom(numbers[1]), atom(numbers[2]))
    }

    /// Gate, b and c.
    fn numbers(self) -> &'i [u32] {
        &self.index.pairs[PAIR_NUMBERS * self.slot..][..PAIR_NUMBERS]
    }

    /// Its row at the bank's points.
    pub fn row(self) -> &'i Row {
        let row = &self.index.rows[ROW_WORDS * self.slot..][..ROW_WORDS];
        row.try_into().expect("a row has sixteen words")
    }

    /// Written out in postfix: b, c, the gate.
    pub fn postfix(self) -> FormulaBuf {
        let (b, c) = self.atoms();
        operation(b.formula(), c.formula(), self.gate().token())
    }
}

/// The same slot of the very same index; not of a copy.
impl PartialEq for Pair<'_> {
    fn eq(&self, other: &Self) -> bool {
        std::ptr::eq(self.index, other.index) && self.slot == other.slot
    }
}

impl Eq for Pair<'_> {}

impl fmt::Debug for Pair<'_> {
    fn fmt(&self, f: &mut fmt::Formatter<'_>) -> fmt::Result {
        write!(f, "Pair({}: {})", self.slot, self.postfix())
    }
}

/// Written out in postfix.
impl fmt::Display for Pair<'_> {
    fn fmt(&self, f: &mut fmt::Formatter<'_>) -> fmt::Result {
        self.postfix().fmt(f)
    }
}

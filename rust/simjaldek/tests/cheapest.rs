//! The product search shows the cheapest product that fits, and the first of those in the order of the search: beside a plain statement that
//! tries everything and keeps the least.

mod common;

use common::{p2, repeated, OwnAtoms, OwnPairs};
use simjaldek::lent::{self, WrittenAtoms, WrittenPairs};
use simjaldek::{
    bitmask, gate_apply, splitmix64, AtomSlot, Bank, Cost, FormulaBuf, Gate, Index, Load, PairSlot,
    Points, Product, ProductAnswer, Row, Token, PAIRS_MAX,
};

// ---- the statement

/// Size, products and depth: in the cost order as tuples are.
type Numbers = (u32, u32, u32);

/// The cost of tokens that are a formula, by a stack of costs, each with whether a variable occurs.
fn cost_of(tokens: &[Token]) -> Numbers {
    let mut stack: Vec<(Numbers, bool)> = Vec::new();
    for token in tokens {
        let next = match token {
            Token::Constant(_) => ((1, 0, 1), false),
            Token::Variable(_) => ((1, 0, 1), true),
            Token::Not | Token::Neg => {
                let ((size, products, depth), variable) = stack.pop().expect("a value");
                ((size + 1, products, depth + 1), variable)
            }
            gate => {
                let (y, x) = (stack.pop().expect("a value"), stack.pop().expect("two"));
                let nonlinear = *gate == Token::Mul && x.1 && y.1;
                let size = x.0 .0 + y.0 .0 + if nonlinear { 3 } else { 1 };
                let products = x.0 .1 + y.0 .1 + u32::from(nonlinear);
                let depth = 1 + x.0 .2.max(y.0 .2);
                ((size, products, depth), x.1 || y.1)
            }
        };
        stack.push(next);
    }
    assert_eq!(stack.len(), 1, "{tokens:?}");
    stack[0].0
}

/// What a search is lent, taken apart.
struct Lent {
    width: u32,
    formulas: Vec<Vec<Token>>,
    rows: Vec<Row>,
    pairs: Vec<([usize; 3], Row)>,
}

impl Lent {
    fn new(width: u32, atoms: WrittenAtoms<'_>, pairs: WrittenPairs<'_>) -> Self {
        let formula = |slot: usize| -> Vec<Token> {
            let places = 6 * slot..6 * slot + atoms.lengths[slot] as usize;
            places
                .map(|at| Token::of(atoms.ops[at], atoms.operands[at]))
                .collect()
        };
        let pair = |slot: usize| {
            let numbers = [0, 1, 2].map(|k| pairs.words[3 * slot + k] as usize);
            (numbers, row_at(pairs.rows, slot))
        };
        Lent {
            width,
            formulas: (0..atoms.count).map(formula).collect(),
            rows: (0..atoms.count).map(|k| row_at(atoms.rows, k)).collect(),
            pairs: (0..pairs.count).map(pair).collect(),
        }
    }

    /// Whether the first words say "used", by the rule of the candidates.
    fn used(&self, a: usize, target: &Row) -> bool {
        let (p, t) = (self.rows[a][0] & bitmask(self.width), target[0]);
        let z = p.trailing_zeros();
        let all = p == 0 && t == 0;
        let many = p != 0 && z > 8 && t % (1 << z) == 0;
        !all && !many
    }

    /// Whether all sixteen products are the target's words modulo 2^w.
    fn fits(&self, x: &Row, y: &Row, target: &Row) -> bool {
        let mask = bitmask(self.width);
        (0..16).all(|i| x[i].wrapping_mul(y[i]) & mask == target[i])
    }

    /// A product written out: a, b, Mul or a, b, c, the gate, Mul.
    fn written(&self, product: Product) -> Vec<Token> {
        let formula = |slot: usize| self.formulas[slot].clone();
        let parts = match product {
            Product::Atoms(a, b) => vec![formula(a.0 as usize), formula(b.0 as usize)],
            Product::AtomPair(a, pair) => {
                let [gate, b, c] = self.pairs[pair.0 as usize].0;
                let gate = Gate::ALL[gate].token();
                vec![formula(a.0 as usize), formula(b), formula(c), vec![gate]]
            }
            Product::Nothing => panic!("nothing is not written out"),
        };
        [parts.concat(), vec![Token::Mul]].concat()
    }

    /// All trials that fit, in the order of the search.
    fn fitting(&self, target: &Row) -> Vec<Product> {
        let mut all = Vec::new();
        for (a, row) in self.rows.iter().enumerate() {
            for (b, other) in self.rows.iter().enumerate() {
                if self.fits(row, other, target) {
                    all.push(two_atoms(a, b));
                }
            }
        }
        let by_slot: Vec<usize> = (0..self.pairs.len()).collect();
        let mut by_word = by_slot.clone();
        by_word.sort_by_key(|&slot| (self.pairs[slot].1[0], slot));
        for (a, row) in self.rows.iter().enumerate() {
            let used = self.used(a, target);
            for &slot in if used { &by_word } else { &by_slot } {
                if self.fits(row, &self.pairs[slot].1, target) {
                    all.push(atom_and_pair(a, slot));
                }
            }
        }
        all
    }

    /// Trying everything: what is kept gives way to what is strictly better only.
    fn least(&self, target: &Row) -> Least {
        let fitting = self.fitting(target);
        let mut kept: Option<(Numbers, Product)> = None;
        let mut equal = Vec::new();
        for &product in &fitting {
            let cost = cost_of(&self.written(product));
            if kept.map_or(true, |(least, _)| cost < least) {
                kept = Some((cost, product));
                equal.clear();
            }
            if kept.is_some_and(|(least, _)| cost == least) {
                equal.push(product);
            }
        }
        Least {
            product: kept.map_or(Product::Nothing, |(_, product)| product),
            cost: kept.map(|(cost, _)| cost),
            fitting,
            equal,
        }
    }
}

/// The least, its cost, all that fit and those of them that cost as little, each in the order of the search.
struct Least {
    product: Product,
    cost: Option<Numbers>,
    fitting: Vec<Product>,
    equal: Vec<Product>,
}

fn row_at(rows: &[u64], slot: usize) -> Row {
    rows[16 * slot..][..16].try_into().expect("sixteen words")
}

fn two_atoms(a: usize, b: usize) -> Product {
    Product::Atoms(AtomSlot(a as u32), AtomSlot(b as u32))
}

fn atom_and_pair(a: usize, pair: usize) -> Product {
    Product::AtomPair(AtomSlot(a as u32), PairSlot(pair as u32))
}

// ---- what kinds of searches there were

/// How many searches had what a wrong search would get wrong.
#[derive(Debug, Default)]
struct Kinds {
    nothing: usize,
    one: usize,
    thousands: usize,
    /// Several cost as little.
    equal: usize,
    /// The first that fits isn't the cheapest.
    not_first: usize,
    /// A pair is shown though two atoms fit.
    pair_before_atoms: usize,
    /// Another is as large, with more products or deeper.
    as_large: [usize; 2],
    /// Of pairs with the same atom that cost as little, the least slot isn't shown.
    not_least_slot: usize,
    /// The same of the least first word, where the rule says "not used".
    not_least_word: usize,
}

impl Kinds {
    /// The least of all counts but that of thousands.
    fn least(&self) -> usize {
        let [products, depth] = self.as_large;
        let counts = [self.nothing, self.one, self.equal, self.not_first];
        let more = [self.pair_before_atoms, products, depth];
        let slots = [self.not_least_slot, self.not_least_word];
        let all = counts.into_iter().chain(more).chain(slots);
        all.min().expect("there are counts")
    }

    fn count(&mut self, lent: &Lent, target: &Row, least: &Least) {
        let fits = least.fitting.len();
        self.nothing += usize::from(fits == 0);
        self.one += usize::from(fits == 1);
        self.thousands += usize::from(fits >= 2000);
        self.equal += usize::from(least.equal.len() > 1);
        self.not_first += usize::from(least.fitting.first().is_some_and(|&f| f != least.product));
        let atoms = matches!(least.fitting.first(), Some(Product::Atoms(..)));
        let Some(cost) = least.cost else { return };
        if let Product::AtomPair(a, pair) = least.product {
            self.pair_before_atoms += usize::from(atoms);
            self.count_slots(lent, target, least, a, pair);
        }
        let others = least.fitting.iter().take(500);
        let others: Vec<Numbers> = others.map(|&p| cost_of(&lent.written(p))).collect();
        let same_size = |other: &&Numbers| other.0 == cost.0;
        let mut same_size = others.iter().filter(same_size);
        self.as_large[0] += usize::from(same_size.clone().any(|other| other.1 > cost.1));
        self.as_large[1] += usize::from(same_size.any(|o| o.1 == cost.1 && o.2 > cost.2));
    }

    fn count_slots(&mut self, lent: &Lent, target: &Row, least: &Least, a: AtomSlot, s: PairSlot) {
        let same_atom = least.equal.iter().filter_map(|&product| match product {
            Product::AtomPair(other, slot) if other == a => Some(slot),
            _ => None,
        });
        let word = |slot: PairSlot| lent.pairs[slot.0 as usize].1[0];
        let slots: Vec<PairSlot> = same_atom.collect();
        self.not_least_slot += usize::from(slots.iter().any(|&other| other < s));
        let lesser = slots.iter().any(|&other| word(other) < word(s));
        assert!(!(lesser && lent.used(a.0 as usize, target)));
        self.not_least_word += usize::from(lesser);
    }
}

// ---- built banks

/// Numbers that splitmix64 draws.
struct Draws(u64);

impl Draws {
    fn below(&mut self, bound: u64) -> u64 {
        let (state, word) = splitmix64(self.0);
        self.0 = state;
        word % bound
    }

    fn one_of<T: Copy>(&mut self, all: &[T]) -> T {
        all[self.below(all.len() as u64) as usize]
    }
}

/// Targets for a bank: zero, constants, atoms' rows, products of two and of three of them, and random words.
fn targets(bank: &Bank, count: usize, draws: &mut Draws) -> Vec<Row> {
    let (width, mask) = (bank.width(), bitmask(bank.width()));
    let rows: Vec<Row> = bank.atoms().map(|atom| *atom.row()).collect();
    let apply = |gate, a: &Row, b: &Row| gate_apply(a, b, gate, width).expect("in range");
    let mut all: Vec<Row> = [0, 1, 2, 4, 6, mask, mask - 1, 1 << (width - 1)]
        .map(|word| [word & mask; 16])
        .to_vec();
    for _ in 0..count {
        let [a, b, c] = [(); 3].map(|()| draws.one_of(&rows));
        let inner = apply(draws.one_of(&Gate::ALL), &b, &c);
        let random = draws.below(u64::MAX) & mask;
        all.extend([a, apply(Gate::Mul, &a, &b), apply(Gate::Mul, &a, &inner)]);
        all.push(repeated(&[random, draws.below(u64::MAX) & mask]));
    }
    all
}

/// Searches an index for targets, and counts what kinds of searches these were.
fn compare(index: &Index<'_>, targets: &[Row], kinds: &mut Kinds) {
    let (atoms, pairs) = (index.bank().lend_written(), index.lend_written());
    let lent = Lent::new(index.width(), atoms, pairs);
    for target in targets {
        let least = lent.least(target);
        let answer = index.product_search(target).expect("words below 2^w");
        let setting = (index.bank().num_vars(), index.width(), index.len());
        assert_eq!(answer.slots(), least.product, "{setting:?} {target:?}");
        assert_eq!(answer.cost().map(numbers), least.cost);
        let told = answer.postfix_and_cost();
        assert_eq!(told.is_none(), least.product == Product::Nothing);
        if let Some((formula, cost)) = told {
            let tokens: Vec<Token> = formula.as_formula().tokens().collect();
            assert_eq!(tokens, lent.written(least.product));
            assert_eq!(Some(numbers(cost)), least.cost);
            let row = index.bank().points().row(formula.as_formula());
            assert_eq!(row, Ok(*target));
        }
        kinds.count(&lent, target, &least);
    }
}

fn numbers(cost: Cost) -> Numbers {
    (cost.size, cost.products, cost.depth)
}

#[test]
fn built_banks() {
    let mut draws = Draws(1);
    let mut kinds = Kinds::default();
    let one = [1, 2, 3, 4, 8, 9, 10, 16, 33, 64].map(|width| (1, width));
    let two = [1, 2, 8, 64].map(|width| (2, width));
    let more = [(3, 1), (3, 2), (4, 1), (5, 1), (6, 1)];
    for (num_vars, width) in one.into_iter().chain(two).chain(more) {
        let points = Points::standard(num_vars, width).unwrap();
        let seeds = repeated(&[2, 0, 3, 5]).map(|word| word & bitmask(width));
        for target in [[0; 16], seeds] {
            let bank = Bank::build(&points, &target).unwrap();
            let targets = targets(&bank, 3, &mut draws);
            for limit in [0, 200, PAIRS_MAX] {
                let index = Index::build(&bank, limit).unwrap();
                compare(&index, &targets, &mut kinds);
            }
        }
    }
    let Kinds { as_large, .. } = kinds;
    let several = [kinds.nothing, kinds.one, kinds.equal, kinds.not_first];
    assert!(several.iter().all(|&count| count > 100), "{kinds:?}");
    let few = [kinds.thousands, kinds.pair_before_atoms, as_large[1]];
    assert!(few.iter().all(|&count| count > 10), "{kinds:?}");
}

/// The largest bank, with a cut index.
#[test]
fn six_variables() {
    let mut draws = Draws(6);
    let mut kinds = Kinds::default();
    for width in [2, 16, 64] {
        let points = Points::standard(6, width).unwrap();
        let bank = Bank::build(&points, &[2; 16]).unwrap();
        let index = Index::build(&bank, 2000).unwrap();
        assert!(index.is_cut());
        compare(&index, &targets(&bank, 1, &mut draws), &mut kinds);
    }
    assert!(kinds.thousands > 0 && kinds.not_first > 0, "{kinds:?}");
}

/// P2's bank has the row of `v0 v0 *` at slot 8, and `c1 v0 v0 * *` comes first; `v0 v0 *` is cheaper.
#[test]
fn p2_square() {
    let bank = p2();
    for limit in [0, PAIRS_MAX] {
        let index = Index::build(&bank, limit).unwrap();
        let square: FormulaBuf = "v0 v0 *".parse().unwrap();
        let answer = index.product_for(square.as_formula()).unwrap();
        assert_eq!(answer.slots(), two_atoms(4, 4));
        let cost = Cost {
            size: 5,
            products: 1,
            depth: 2,
        };
        assert_eq!(answer.postfix_and_cost(), Some((square, cost)));
    }
}

/// All targets of four words over and over.
#[test]
fn p2_every_target() {
    let bank = p2();
    let target = |number: u64| repeated(&[0, 2, 4, 6].map(|place| number >> place & 3));
    let targets: Vec<Row> = (0..256).map(target).collect();
    let mut kinds = Kinds::default();
    let index = Index::build(&bank, PAIRS_MAX).unwrap();
    compare(&index, &targets, &mut kinds);
    assert_eq!((kinds.nothing, kinds.not_first), (196, 23), "{kinds:?}");
}

/// An index lists one pair for a row, the first: the whole index of P2 has c1 ^ !v0, and c2 ^ v0, which costs less, has the same row.
#[test]
fn a_pair_that_is_not_listed() {
    let bank = p2();
    let index = Index::build(&bank, PAIRS_MAX).unwrap();
    let cheaper: FormulaBuf = "c1 c2 v0 ^ *".parse().unwrap();
    let answer = index.product_for(cheaper.as_formula()).unwrap();
    let (formula, cost) = answer.postfix_and_cost().expect("a product");
    assert_eq!(formula.to_string(), "c1 c1 v0 ! ^ *");
    let tokens: Vec<Token> = cheaper.as_formula().tokens().collect();
    assert!(cost_of(&tokens) < numbers(cost));
}

#[test]
fn nothing_costs_nothing() {
    for certain in [true, false] {
        let nothing = ProductAnswer::Nothing { certain };
        assert_eq!(nothing.cost(), None);
        assert_eq!(nothing.postfix_and_cost(), None);
    }
}

// ---- lent banks

/// What is lent, and the least, which is the answer over it.
fn compared(width: u32, atoms: &OwnAtoms, pairs: &OwnPairs, target: &Row) -> (Lent, Least) {
    let (atoms, pairs) = (atoms.lend(), pairs.lend());
    let found = lent::product_search(width, atoms, pairs, target).expect("it isn't refused");
    let lent = Lent::new(width, atoms, pairs);
    let least = lent.least(target);
    assert_eq!(
        found, least.product,
        "{width} {atoms:?} {pairs:?} {target:?}"
    );
    (lent, least)
}

/// The answer over these atoms and pairs.
fn searched(width: u32, atoms: &OwnAtoms, pairs: &OwnPairs, target: &Row) -> Product {
    compared(width, atoms, pairs, target).1.product
}

/// The answer at width 8 over atoms of one word each, pairs of one word each, for a target of one.
fn of_words(atoms: &[(&str, u64)], pairs: &[(Gate, u32, u32, u64)], target: u64) -> Product {
    let atoms: Vec<(&str, Row)> = atoms
        .iter()
        .map(|&(text, word)| (text, [word; 16]))
        .collect();
    let pairs: Vec<(Gate, u32, u32, Row)> = pairs
        .iter()
        .map(|&(gate, b, c, word)| (gate, b, c, [word; 16]))
        .collect();
    searched(
        8,
        &OwnAtoms::new(&atoms),
        &OwnPairs::new(&pairs),
        &[target; 16],
    )
}

#[test]
fn the_cheaper_of_two_atoms() {
    // 6 is 1 × 6 and 2 × 3
    let atoms = [("v0 v1 +", 1), ("v0 !", 6), ("v0", 2), ("v1", 3)];
    assert_eq!(of_words(&atoms, &[], 6), two_atoms(2, 3));
    let atoms = [("v0", 1), ("v1", 6), ("v0 !", 2), ("v1", 3)];
    assert_eq!(of_words(&atoms, &[], 6), two_atoms(0, 1));
    // as dear: the earlier
    let atoms = [("v0", 1), ("v1", 6), ("v2", 2), ("v3", 3)];
    assert_eq!(of_words(&atoms, &[], 6), two_atoms(0, 1));
    let atoms = [("v0", 2), ("v1", 1), ("v2", 3), ("v3", 6)];
    assert_eq!(of_words(&atoms, &[], 6), two_atoms(0, 2));
    let atoms = [("v0", 2), ("v1", 3), ("v2", 3), ("v3", 2)];
    assert_eq!(of_words(&atoms, &[], 6), two_atoms(0, 1));
}

/// The first difference of size, products and depth decides.
#[test]
fn size_then_products_then_depth() {
    let chosen = |first: [&str; 2], second: [&str; 2]| {
        let [[a, b], [c, d]] = [first, second];
        let found = of_words(&[(a, 1), (b, 6), (c, 2), (d, 3)], &[], 6);
        assert!([two_atoms(0, 1), two_atoms(2, 3)].contains(&found));
        found == two_atoms(2, 3)
    };
    // 5 1 2 against 4 0 3: a product with a constant is no nonlinear one
    assert!(chosen(["v0", "v1"], ["c3", "v0 !"]));
    // 5 1 2 against 5 0 4, and 5 0 4 against 5 0 3
    assert!(chosen(["v0", "v1"], ["c3", "v0 ! !"]));
    assert!(!chosen(["c3", "v0 ! !"], ["v0", "v1"]));
    assert!(chosen(["c3", "v0 ! !"], ["c3 !", "v0 !"]));
    assert!(!chosen(["c3 !", "v0 !"], ["c3", "v0 ! !"]));
    // 5 1 2 against 6 0 5, and 6 1 3 against 5 0 4: the size alone
    assert!(!chosen(["v0", "v1"], ["c3", "v0 ! ! !"]));
    assert!(chosen(["v0 !", "v1"], ["c3", "v0 ! !"]));
    // a variable anywhere below counts, and only one
    assert!(chosen(["v0 v0 ^", "v1"], ["c3 c4 ^", "v1"]));
    assert!(!chosen(["v0 v0 ^", "c1"], ["c3 c4 ^", "v1"]));
}

#[test]
fn a_pair_against_two_atoms() {
    let long = ("v0 v1 * v2 *", 6);
    let sum = (Gate::Add, 0, 0, 6);
    // c1 v0 v1 * v2 * * costs 11, c1 c1 c1 + * costs 5
    assert_eq!(of_words(&[("c1", 1), long], &[sum], 6), atom_and_pair(0, 0));
    assert_eq!(of_words(&[("c1", 1), long], &[], 6), two_atoms(0, 1));
    // c1 c2 c2 + * costs as much either way: two atoms come first
    let held = ("c2 c2 +", 6);
    assert_eq!(of_words(&[("c1", 1), held], &[sum], 6), two_atoms(0, 1));
    // the pair's own gate and both its atoms count
    let pair = |gate, b, c| [(gate, b, c, 6)];
    let atoms = [("v0", 1), ("v1 !", 6), ("c1", 9)];
    assert_eq!(
        of_words(&atoms, &pair(Gate::Xor, 2, 2), 6),
        atom_and_pair(0, 0)
    );
    assert_eq!(of_words(&atoms, &pair(Gate::Xor, 0, 2), 6), two_atoms(0, 1));
    assert_eq!(of_words(&atoms, &pair(Gate::Xor, 2, 0), 6), two_atoms(0, 1));
    let atoms = [("c1", 1), ("v1 ! ! !", 6), ("v0", 9)];
    assert_eq!(
        of_words(&atoms, &pair(Gate::Add, 2, 2), 6),
        atom_and_pair(0, 0)
    );
    assert_eq!(of_words(&atoms, &pair(Gate::Mul, 2, 2), 6), two_atoms(0, 1));
    assert_eq!(
        of_words(&atoms, &pair(Gate::Mul, 0, 2), 6),
        atom_and_pair(0, 0)
    );
}

/// Every atom is tried, also after one that fits.
#[test]
fn a_later_atom() {
    let atoms = [("v0 v1 +", 1), ("v0 !", 2), ("v0", 3)];
    let pairs = [
        (Gate::And, 0, 0, 6),
        (Gate::And, 0, 1, 3),
        (Gate::And, 2, 2, 2),
    ];
    assert_eq!(of_words(&atoms, &pairs, 6), two_atoms(1, 2));
    assert_eq!(of_words(&atoms, &pairs, 5), Product::Nothing);
    let pairs = [
        (Gate::And, 0, 0, 12),
        (Gate::And, 0, 1, 6),
        (Gate::And, 2, 2, 4),
    ];
    assert_eq!(of_words(&atoms, &pairs, 12), atom_and_pair(2, 2));
}

/// And every pair, also after one that fits with the same atom.
#[test]
fn a_later_pair() {
    let atoms = [("c1", 1), ("v0", 9)];
    let pairs = [1, 0, 1].map(|b| (Gate::Mul, b, b, 6));
    assert_eq!(of_words(&atoms, &pairs, 6), atom_and_pair(0, 1));
    assert_eq!(of_words(&atoms, &pairs[2..], 6), atom_and_pair(0, 0));
}

/// A row that fits but for one bit of one place does not fit.
#[test]
fn all_sixteen_words_are_compared() {
    let right: Row = std::array::from_fn(|place| 3 * place as u64);
    let atom = ("v0", [1; 16]);
    for (place, bit) in (0..16).flat_map(|place| [0, 7, 63].map(|bit| (place, bit))) {
        let mut row = right;
        row[place] ^= 1 << bit;
        // bit 63 doesn't count at width 8
        let expected = |product| if bit == 63 { product } else { Product::Nothing };
        let atoms = OwnAtoms::new(&[atom, ("v1", row)]);
        let found = searched(8, &atoms, &OwnPairs::default(), &right);
        assert_eq!(found, expected(two_atoms(0, 1)), "{place} {bit}");
        let pairs = OwnPairs::new(&[(Gate::Add, 0, 0, row)]);
        let found = searched(8, &OwnAtoms::new(&[atom]), &pairs, &right);
        assert_eq!(found, expected(atom_and_pair(0, 0)), "{place} {bit}");
    }
}

/// A row of one word but for its first.
fn begun(first: u64, rest: u64) -> Row {
    std::array::from_fn(|place| if place == 0 { first } else { rest })
}

/// Which of two pairs that cost as little is shown with one atom: first words, the atom's, the pairs', the target's.
fn shown(width: u32, atom: u64, pairs: [u64; 2], target: u64) -> usize {
    let atoms = OwnAtoms::new(&[("v0", begun(atom, 2))]);
    let gates = [Gate::And, Gate::Or];
    let pairs = [0, 1].map(|slot| (gates[slot], 0, 0, begun(pairs[slot], 3)));
    let found = searched(width, &atoms, &OwnPairs::new(&pairs), &begun(target, 6));
    let is_shown = |slot: &usize| found == atom_and_pair(0, *slot);
    (0..2).find(is_shown).expect("one of the two")
}

#[test]
fn pairs_in_the_order_of_the_search() {
    // used, 2 × 131 and 2 × 3 are 6 modulo 256: the least first word, not the least slot
    assert_eq!(shown(8, 2, [131, 3], 6), 1);
    assert_eq!(shown(8, 2, [3, 131], 6), 0);
    assert_eq!(shown(8, 2, [131, 131], 6), 0);
    // not used, first words 0 and 0: the least slot
    assert_eq!(shown(8, 0, [131, 3], 0), 0);
    // 256 is 0 at width 8, and has eight zeros, for which it is used, at greater ones; with nine it isn't
    assert_eq!(shown(8, 256, [131, 3], 0), 0);
    assert_eq!(shown(16, 256, [259, 3], 768), 1);
    assert_eq!(shown(16, 512, [131, 3], 1536), 0);
    assert_eq!(shown(64, 1 << 63, [3, 1], 1 << 63), 0);
    // first words count as they are lent: 259 is 3 modulo 256, and comes after 131
    assert_eq!(shown(8, 2, [259, 131], 6), 1);
    assert_eq!(shown(8, 2, [131, 259], 6), 0);
}

/// Of pairs that cost as little the first atom's is shown, whatever the slot.
#[test]
fn atoms_before_pairs() {
    let pairs = [(Gate::And, 0, 0, 5), (Gate::Or, 0, 0, 7)];
    let atoms = [("v0", 5), ("v1", 7)];
    assert_eq!(of_words(&atoms, &pairs, 35), two_atoms(0, 1));
    let atoms = [("v0", 3), ("v1", 7)];
    let pairs = [(Gate::And, 0, 0, 5), (Gate::Or, 0, 0, 97)];
    // 3 × 97 is 35 modulo 256
    assert_eq!(of_words(&atoms, &pairs, 35), atom_and_pair(0, 1));
}

/// Fit goes by the rows alone and cost by the formulas alone: what stands in unused places is not read.
#[test]
fn rows_and_formulas_apart() {
    // c9 has the row of no formula that it is, and is the cheapest
    let atoms = [("v0 v1 * v2 *", 1), ("c9", 1), ("c200", 6)];
    assert_eq!(of_words(&atoms, &[], 6), two_atoms(1, 2));
    let none = (OwnAtoms::default(), OwnPairs::default());
    assert_eq!(searched(8, &none.0, &none.1, &[0; 16]), Product::Nothing);
}

/// Formulas that are cheap and dear, with and without variables, and several of one cost.
const FORMULAS: [&str; 14] = [
    "c0",
    "c7",
    "v0",
    "v5",
    "c1 !",
    "v0 !",
    "v1 -",
    "v0 ! !",
    "c1 v0 +",
    "v0 v1 +",
    "v0 v1 *",
    "c3 v1 *",
    "v0 v1 * !",
    "c1 c2 + !",
];

/// Banks and indexes of a caller's own, of few words, so that there are fits of all kinds; every third has words that reach 2^w. Formulas
/// have nothing to do with rows, nor a pair's gate and atoms with its own.
#[test]
fn lent_banks() {
    let mut draws = Draws(2);
    let mut load = Load::new(3, 6, 64, 6).unwrap();
    let mut kinds = Kinds::default();
    for round in 0..30_000 {
        let width = draws.one_of(&[1, 2, 3, 8, 10, 12, 16, 64]);
        let high = if round % 3 == 0 { !bitmask(width) } else { 0 };
        let shift = draws.one_of(&[0, 0, 8, 9, 10]) % width;
        let atoms = draws.atoms(high, shift, &mut load);
        let pairs = draws.pairs(high, atoms.lengths.len());
        let target = draws.row(0, shift).map(|word| word & bitmask(width));
        let (lent, least) = compared(width, &atoms, &pairs, &target);
        kinds.count(&lent, &target, &least);
    }
    assert!(kinds.least() > 40, "{kinds:?}");
}

impl Draws {
    /// A row of one word, sometimes of two over and over: three bits from a place on, or more where `high` has bits.
    fn row(&mut self, high: u64, shift: u32) -> Row {
        let [one, two] = [(); 2].map(|()| (self.below(u64::MAX) & (high | 7)) << shift);
        repeated(&[one, if self.below(4) == 0 { two } else { one }])
    }

    /// One to six atoms; every fourth formula is drawn.
    fn atoms(&mut self, high: u64, shift: u32, load: &mut Load) -> OwnAtoms {
        let mut atoms = OwnAtoms::default();
        for _ in 0..self.one_of(&[1, 1, 2, 6]) {
            let drawn = load.next().expect("a load has no end");
            let few = self.one_of(&FORMULAS).parse().expect("tokens");
            let formula = if self.below(4) == 0 { drawn } else { few };
            let shift = self.one_of(&[0, shift]);
            atoms.push(&formula, &self.row(high, shift));
        }
        atoms
    }

    /// Up to eight pairs of so many atoms.
    fn pairs(&mut self, high: u64, atoms: usize) -> OwnPairs {
        let count = self.below(9);
        let mut pair = || {
            let [b, c] = [(); 2].map(|()| self.below(atoms as u64) as u32);
            (self.one_of(&Gate::ALL), b, c, self.row(high, 0))
        };
        let pairs: Vec<(Gate, u32, u32, Row)> = (0..count).map(|_| pair()).collect();
        OwnPairs::new(&pairs)
    }
}

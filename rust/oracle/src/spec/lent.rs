//! What is handed to the candidates, to the searches, to the test load, to rules and to the closing log, good or not.

use crate::access::Row;

use super::bank::{ATOMS_MAX, ATOM_TOKENS};
use super::formulas::{are_formula, is_formula, TOKENS_MAX, VARS_MAX};
use super::index::PAIRS_MAX;
use super::log::RULES_MAX;
use super::product::order_list;
use super::refusals::{
    NONE, REFUSED_COUNT, REFUSED_FORMULA, REFUSED_LENGTH, REFUSED_ORDER, REFUSED_RANKS,
    REFUSED_VARS, REFUSED_WIDTH, REFUSED_WINDOW, REFUSED_WORD,
};

/// The listed pairs.
#[derive(Clone)]
pub struct Pairs {
    /// How many are claimed.
    pub count: u64,
    /// How many row words are lent; `first_words` has that of each whole row.
    pub rows: u64,
    pub first_words: Vec<u64>,
    pub order: Vec<u64>,
}

impl Pairs {
    fn is_array_short(&self) -> bool {
        is_short(self.rows, 16, self.count) || is_short(self.order.len() as u64, 1, self.count)
    }

    /// The order list, for arrays that are long enough: all slots, strictly ascending by (first row word, slot).
    fn is_ordered(&self) -> bool {
        let words = &self.first_words[..self.count as usize];
        let order = &self.order[..self.count as usize];
        let expected = order_list(words).into_iter().map(|slot| slot as u64);
        let ordered = expected.eq(order.iter().copied());
        assert_eq!(ordered, is_ascending(words, order));
        ordered
    }
}

fn is_short(length: u64, stride: u128, count: u64) -> bool {
    u128::from(length) < stride * u128::from(count)
}

/// The same by neighbours: as many slots as words, each below their number and above the one before it.
fn is_ascending(words: &[u64], order: &[u64]) -> bool {
    let key = |&slot: &u64| words.get(slot as usize).map(|&word| (word, slot));
    let keys: Option<Vec<(u64, u64)>> = order.iter().map(key).collect();
    keys.is_some_and(|keys| keys.windows(2).all(|two| two[0] < two[1]))
}

/// What is handed to `collect_mul_probe0_candidates`; of the lent list its length.
#[derive(Clone)]
pub struct Candidates {
    pub width: u64,
    pub pairs: Pairs,
    pub p: u64,
    pub t: u64,
    pub list: u64,
}

impl Candidates {
    /// The table for the candidates: 2, 4, 5, 7, 8, the least that applies.
    pub fn refusal(&self) -> u64 {
        if !(1..=64).contains(&self.width) {
            REFUSED_WIDTH
        } else if self.pairs.is_array_short() || is_short(self.list, 1, self.pairs.count) {
            REFUSED_LENGTH
        } else if [self.p, self.t]
            .iter()
            .any(|&word| reaches(word, self.width))
        {
            REFUSED_WORD
        } else if self.pairs.count > PAIRS_MAX {
            REFUSED_COUNT
        } else if !self.pairs.is_ordered() {
            REFUSED_ORDER
        } else {
            NONE
        }
    }
}

/// Whether a word is not below 2^width, for a width from 1 to 64.
fn reaches(word: u64, width: u64) -> bool {
    u128::from(word) >> width != 0
}

/// What is handed to the product search; of the atoms' rows their length.
#[derive(Clone)]
pub struct ProductSearch<'a> {
    pub width: u64,
    pub count: u64,
    pub formulas: Formulas<'a>,
    pub atoms: u64,
    pub pairs: Pairs,
    /// Gate, b and c of each pair.
    pub words: &'a [u32],
    pub target: Row,
}

/// The atoms' formulas: recorded lengths, and six places for tokens each.
#[derive(Clone, Copy)]
pub struct Formulas<'a> {
    pub lengths: &'a [u32],
    pub ops: &'a [u8],
    pub operands: &'a [u64],
}

impl Formulas<'_> {
    fn is_array_short(&self, count: u64) -> bool {
        let [lengths, ops, operands] =
            [self.lengths.len(), self.ops.len(), self.operands.len()].map(|length| length as u64);
        is_short(lengths, 1, count) || is_short(ops, 6, count) || is_short(operands, 6, count)
    }

    /// Whether an atom has one to six tokens that pass the formula test with six variables.
    fn is_formula(&self, atom: usize) -> bool {
        let length = self.lengths[atom] as usize;
        if length == 0 || length > ATOM_TOKENS {
            return false;
        }
        let ops = &self.ops[ATOM_TOKENS * atom..][..length];
        let ops: Vec<u64> = ops.iter().copied().map(u64::from).collect();
        let operands = &self.operands[ATOM_TOKENS * atom..][..length];
        is_formula(VARS_MAX, &ops, operands)
    }
}

impl ProductSearch<'_> {
    /// The table for the product search: 2, 4, 5, 6, 7, 8, the least that applies.
    pub fn refusal(&self) -> u64 {
        if !(1..=64).contains(&self.width) {
            REFUSED_WIDTH
        } else if self.is_array_short() {
            REFUSED_LENGTH
        } else if self.target.iter().any(|&word| reaches(word, self.width)) {
            REFUSED_WORD
        } else if !(0..self.count as usize).all(|atom| self.formulas.is_formula(atom)) {
            REFUSED_FORMULA
        } else if self.are_counts_large() || !self.are_pairs_good() {
            REFUSED_COUNT
        } else if !self.pairs.is_ordered() {
            REFUSED_ORDER
        } else {
            NONE
        }
    }

    fn is_array_short(&self) -> bool {
        self.formulas.is_array_short(self.count)
            || is_short(self.atoms, 16, self.count)
            || is_short(self.words.len() as u64, 3, self.pairs.count)
            || self.pairs.is_array_short()
    }

    fn are_counts_large(&self) -> bool {
        self.count > ATOMS_MAX as u64 || self.pairs.count > PAIRS_MAX
    }

    /// Gates up to 4, and both atoms below the count.
    fn are_pairs_good(&self) -> bool {
        let is_atom = |slot: u32| u64::from(slot) < self.count;
        let mut pairs = self.words.chunks_exact(3).take(self.pairs.count as usize);
        pairs.all(|pair| pair[0] <= 4 && is_atom(pair[1]) && is_atom(pair[2]))
    }
}

/// What is handed to the residual search; of the atoms' and the pairs' rows their lengths.
#[derive(Clone)]
pub struct ResidualSearch {
    pub width: u64,
    pub count: u64,
    pub atoms: u64,
    pub pairs: u64,
    pub listed: u64,
    pub target: Row,
}

impl ResidualSearch {
    /// The table for the residual search: 2, 4, 5, 7, the least that applies.
    pub fn refusal(&self) -> u64 {
        if !(1..=64).contains(&self.width) {
            REFUSED_WIDTH
        } else if is_short(self.atoms, 16, self.count) || is_short(self.listed, 16, self.pairs) {
            REFUSED_LENGTH
        } else if self.target.iter().any(|&word| reaches(word, self.width)) {
            REFUSED_WORD
        } else if self.count > ATOMS_MAX as u64 || self.pairs > PAIRS_MAX {
            REFUSED_COUNT
        } else {
            NONE
        }
    }
}

/// What is handed to the call that draws a formula; of the token arrays their lengths.
#[derive(Clone, Copy, Debug)]
pub struct DrawFormula {
    pub num_vars: u64,
    pub width: u64,
    pub limit: u64,
    pub ops: u64,
    pub operands: u64,
}

impl DrawFormula {
    /// The table for a draw: 1, 2, 4, 6, the least that applies; 4 only for a limit of 1 to 64.
    pub fn refusal(&self) -> u64 {
        let limit_good = (1..=TOKENS_MAX as u64).contains(&self.limit);
        if !(1..=VARS_MAX).contains(&self.num_vars) {
            REFUSED_VARS
        } else if !(1..=64).contains(&self.width) {
            REFUSED_WIDTH
        } else if limit_good && self.ops.min(self.operands) < self.limit {
            REFUSED_LENGTH
        } else if !limit_good {
            REFUSED_FORMULA
        } else {
            NONE
        }
    }
}

/// What is handed to the call that runs a rule; of the records and of the answers the lengths of their arrays.
#[derive(Clone, Debug)]
pub struct RunRule {
    pub num_vars: u64,
    pub width: u64,
    pub count: u64,
    pub ops: Vec<u64>,
    pub operands: Vec<u64>,
    pub m: u64,
    pub window: u64,
    pub n: u64,
    pub records: u64,
    pub answers: u64,
}

impl RunRule {
    /// The table for a rule: 1, 2, 4, 6, 10, the least that applies.
    pub fn refusal(&self) -> u64 {
        if !(1..=VARS_MAX).contains(&self.num_vars) {
            REFUSED_VARS
        } else if !(1..=64).contains(&self.width) {
            REFUSED_WIDTH
        } else if self.is_array_short() {
            REFUSED_LENGTH
        } else if !self.is_formula() {
            REFUSED_FORMULA
        } else if !is_window(self.m, self.window) {
            REFUSED_WINDOW
        } else {
            NONE
        }
    }

    fn is_array_short(&self) -> bool {
        is_short(self.ops.len() as u64, 1, self.count)
            || is_short(self.operands.len() as u64, 1, self.count)
            || is_short(self.records, self.num_vars.into(), self.n)
            || is_short(self.answers, 1, self.n)
    }

    /// The formula test, for arrays that are long enough.
    fn is_formula(&self) -> bool {
        are_formula(self.num_vars, self.count, &self.ops, &self.operands)
    }
}

fn is_window(m: u64, window: u64) -> bool {
    (1..=64).contains(&window) && (1..=window).contains(&m)
}

/// What is handed to the call that runs a closing log; of the records the length of their array. Each rule has 64 places for tokens.
#[derive(Clone, Debug)]
pub struct RunLog {
    pub num_vars: u64,
    pub width: u64,
    pub rules: u64,
    pub ranks: Vec<u64>,
    pub ms: Vec<u64>,
    pub windows: Vec<u64>,
    pub token_counts: Vec<u64>,
    pub ops: Vec<u64>,
    pub operands: Vec<u64>,
    pub n: u64,
    pub records: u64,
}

impl RunLog {
    /// The table for a closing log: 1, 2, 4, 6, 10, 11, the least that applies; 6 and 10 of every rule that is claimed.
    pub fn refusal(&self) -> u64 {
        if !(1..=VARS_MAX).contains(&self.num_vars) {
            return REFUSED_VARS;
        }
        if !(1..=64).contains(&self.width) {
            return REFUSED_WIDTH;
        }
        if self.is_array_short() {
            return REFUSED_LENGTH;
        }
        let mut rules = 0..self.rules as usize;
        if !rules.clone().all(|rule| self.is_formula(rule)) {
            return REFUSED_FORMULA;
        }
        if !rules.all(|rule| is_window(self.ms[rule], self.windows[rule])) {
            return REFUSED_WINDOW;
        }
        if !are_ranks(&self.ranks[..self.rules as usize]) {
            return REFUSED_RANKS;
        }
        NONE
    }

    fn is_array_short(&self) -> bool {
        let by_rule = [&self.ranks, &self.ms, &self.windows, &self.token_counts];
        let by_token = [&self.ops, &self.operands];
        let short = |array: &Vec<u64>, places| is_short(array.len() as u64, places, self.rules);
        by_rule.iter().any(|array| short(array, 1))
            || by_token
                .iter()
                .any(|array| short(array, TOKENS_MAX as u128))
            || is_short(self.records, self.num_vars.into(), self.n)
    }

    /// The formula test of a rule, for arrays that are long enough.
    fn is_formula(&self, rule: usize) -> bool {
        let [ops, operands] = [&self.ops, &self.operands].map(|array| &array[TOKENS_MAX * rule..]);
        are_formula(self.num_vars, self.token_counts[rule], ops, operands)
    }
}

/// One to eight ranks of 1 to 8, no two equal.
fn are_ranks(ranks: &[u64]) -> bool {
    let most = RULES_MAX as u64;
    let times = |rank: u64| ranks.iter().filter(|&&other| other == rank).count();
    (1..=RULES_MAX).contains(&ranks.len())
        && ranks
            .iter()
            .all(|&rank| (1..=most).contains(&rank) && times(rank) == 1)
}

#[cfg(test)]
mod tests {
    use super::Pairs;

    /// Of all lists of three entries up to 3, one is the order list, whatever the words.
    #[test]
    fn one_order_list() {
        for code in 0..27 {
            let first_words = vec![code % 3, code / 3 % 3, code / 9];
            let ordered = |code: &u64| {
                let pairs = Pairs {
                    count: 3,
                    rows: 48,
                    first_words: first_words.clone(),
                    order: vec![code % 4, code / 4 % 4, code / 16],
                };
                pairs.is_ordered()
            };
            assert_eq!((0..64).filter(ordered).count(), 1);
        }
    }

    /// Entries from the count on are not read.
    #[test]
    fn longer_order_list() {
        let mut pairs = Pairs {
            count: 1,
            rows: 32,
            first_words: vec![7, 7],
            order: vec![0, 0],
        };
        assert!(pairs.is_ordered());
        pairs.order[0] = 1;
        assert!(!pairs.is_ordered());
    }
}

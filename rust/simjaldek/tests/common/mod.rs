//! Inputs that several tests use.
#![allow(dead_code)]

use simjaldek::lent::{work_len, BankArrays, IndexArrays, Pairs, WrittenAtoms, WrittenPairs};
use simjaldek::{
    splitmix64, Bank, FormulaBuf, Gate, Points, Row, Window, ATOMS_MAX, ATOM_TOKENS, WINDOW_MAX,
};

/// A row of these words over and over.
pub fn repeated(words: &[u64]) -> Row {
    std::array::from_fn(|i| words[i % words.len()])
}

/// Sixteen points of one variable, these words over and over.
pub fn one_variable(width: u32, words: &[u64]) -> Points {
    let points = repeated(words).map(|word| [word, 0, 0, 0, 0, 0]);
    Points::new(1, width, points).expect("words below 2^w")
}

/// P2's bank.
pub fn p2() -> Bank {
    Bank::build(&one_variable(2, &[0, 1, 2, 3]), &[0; 16]).expect("P2 is not refused")
}

/// Words one after the other.
pub struct Words(pub u64);

impl Words {
    pub fn word(&mut self) -> u64 {
        let (state, word) = splitmix64(self.0);
        self.0 = state;
        word
    }

    pub fn below(&mut self, bound: u64) -> u64 {
        self.word() % bound
    }

    /// Any window.
    pub fn window(&mut self) -> Window {
        let records = 1 + self.below(WINDOW_MAX.into()) as u32;
        window(1 + self.below(records.into()) as u32, records)
    }
}

pub fn window(least: u32, records: u32) -> Window {
    Window { least, records }
}

/// What fills buffers before a call.
pub const FILL: u8 = 0x5A;
pub const FILL_U32: u32 = 0x5A5A_5A5A;
pub const FILL_U64: u64 = 0x5A5A_5A5A_5A5A_5A5A;

/// Buffers of a bank build, as long as it needs.
#[derive(Clone, Debug, PartialEq)]
pub struct BankBuffers {
    pub lengths: Vec<u32>,
    pub ops: Vec<u8>,
    pub operands: Vec<u64>,
    pub costs: Vec<u32>,
    pub rows: Vec<u64>,
    pub work: Vec<u32>,
}

impl BankBuffers {
    pub fn new() -> Self {
        BankBuffers {
            lengths: vec![FILL_U32; ATOMS_MAX],
            ops: vec![FILL; 6 * ATOMS_MAX],
            operands: vec![FILL_U64; 6 * ATOMS_MAX],
            costs: vec![FILL_U32; 3 * ATOMS_MAX],
            rows: vec![FILL_U64; 16 * ATOMS_MAX],
            work: vec![FILL_U32; work_len(0)],
        }
    }

    pub fn lend(&mut self) -> BankArrays<'_> {
        BankArrays {
            lengths: &mut self.lengths,
            ops: &mut self.ops,
            operands: &mut self.operands,
            costs: &mut self.costs,
            rows: &mut self.rows,
            work: &mut self.work,
        }
    }
}

/// Buffers of an index build of a limit.
#[derive(Clone, Debug, PartialEq)]
pub struct IndexBuffers {
    pub pairs: Vec<u32>,
    pub rows: Vec<u64>,
    pub order: Vec<u32>,
    pub work: Vec<u32>,
}

impl IndexBuffers {
    pub fn new(limit: usize) -> Self {
        IndexBuffers {
            pairs: vec![FILL_U32; 3 * limit],
            rows: vec![FILL_U64; 16 * limit],
            order: vec![FILL_U32; limit],
            work: vec![FILL_U32; work_len(limit)],
        }
    }

    pub fn lend(&mut self) -> IndexArrays<'_> {
        IndexArrays {
            pairs: &mut self.pairs,
            rows: &mut self.rows,
            order: &mut self.order,
            work: &mut self.work,
        }
    }

    /// The first so many pairs without their gates and atoms.
    pub fn pairs(&self, count: usize) -> Pairs<'_> {
        self.written(count).ordered()
    }

    /// The first so many pairs as a product search takes them.
    pub fn written(&self, count: usize) -> WrittenPairs<'_> {
        WrittenPairs {
            count,
            words: &self.pairs,
            rows: &self.rows,
            order: &self.order,
        }
    }
}

/// Atoms of a caller's own: formulas and rows that need have nothing to do with each other. Past a formula's length stands what is no token.
#[derive(Clone, Debug, Default)]
pub struct OwnAtoms {
    pub lengths: Vec<u32>,
    pub ops: Vec<u8>,
    pub operands: Vec<u64>,
    pub rows: Vec<u64>,
}

impl OwnAtoms {
    /// An atom for each formula and row.
    pub fn new(atoms: &[(&str, Row)]) -> Self {
        let mut own = OwnAtoms::default();
        for (text, row) in atoms {
            own.push(&text.parse().expect("tokens"), row);
        }
        own
    }

    /// An atom of one variable for each row.
    pub fn of_rows(rows: &[Row]) -> Self {
        let atoms: Vec<(&str, Row)> = rows.iter().map(|&row| ("v0", row)).collect();
        OwnAtoms::new(&atoms)
    }

    /// One more atom.
    pub fn push(&mut self, formula: &FormulaBuf, row: &Row) {
        let formula = formula.as_formula();
        let end = ATOM_TOKENS * (self.lengths.len() + 1);
        self.lengths.push(formula.len() as u32);
        self.ops.extend(formula.ops());
        self.ops.resize(end, FILL);
        self.operands.extend(formula.operands());
        self.operands.resize(end, FILL_U64);
        self.rows.extend(row);
    }

    pub fn lend(&self) -> WrittenAtoms<'_> {
        WrittenAtoms {
            count: self.lengths.len(),
            lengths: &self.lengths,
            ops: &self.ops,
            operands: &self.operands,
            rows: &self.rows,
        }
    }
}

/// Pairs of a caller's own: gates, atoms and rows that need have nothing to do with each other, and their order list.
#[derive(Clone, Debug, Default)]
pub struct OwnPairs {
    pub words: Vec<u32>,
    pub rows: Vec<u64>,
    pub order: Vec<u32>,
}

impl OwnPairs {
    /// A pair for each gate, its two atoms and row.
    pub fn new(pairs: &[(Gate, u32, u32, Row)]) -> Self {
        let words = pairs
            .iter()
            .flat_map(|&(gate, b, c, _)| [gate.number(), b, c]);
        let mut order: Vec<u32> = (0..pairs.len() as u32).collect();
        order.sort_by_key(|&slot| (pairs[slot as usize].3[0], slot));
        OwnPairs {
            words: words.collect(),
            rows: pairs.iter().flat_map(|pair| pair.3).collect(),
            order,
        }
    }

    pub fn lend(&self) -> WrittenPairs<'_> {
        WrittenPairs {
            count: self.order.len(),
            words: &self.words,
            rows: &self.rows,
            order: &self.order,
        }
    }
}

//! Buffers filled with garbage, as long as a call needs or longer.

use oracle::access::{AtomView, IndexView, Row};
use oracle::inputs::Inputs;
use oracle::spec::formulas::TOKENS_MAX;
use oracle::spec::log::Ranked;
use simjaldek::lent::{BankArrays, IndexArrays, Rules, WrittenAtoms, WrittenPairs};

/// The token places of an atom, and what stands where there is no token.
pub const ATOM_TOKENS: usize = 6;
const NO_TOKEN: u8 = 255;

pub fn garbage_u64(inputs: &mut Inputs, len: usize) -> Vec<u64> {
    (0..len).map(|_| inputs.word()).collect()
}

pub fn garbage_u32(inputs: &mut Inputs, len: usize) -> Vec<u32> {
    (0..len).map(|_| inputs.word() as u32).collect()
}

pub fn garbage_u8(inputs: &mut Inputs, len: usize) -> Vec<u8> {
    (0..len).map(|_| inputs.word() as u8).collect()
}

/// How many places a buffer has beyond those needed.
pub fn extra(inputs: &mut Inputs) -> usize {
    inputs.one_of(&[0, 0, 0, 1, 2, 17, 50])
}

/// Words with garbage after them, or nothing.
pub fn longer(inputs: &mut Inputs, words: &[u64]) -> Vec<u64> {
    let count = extra(inputs);
    let mut longer = words.to_vec();
    longer.extend(garbage_u64(inputs, count));
    longer
}

/// Rows one after the other, with garbage after them, or nothing.
pub fn flat(inputs: &mut Inputs, rows: &[Row]) -> Vec<u64> {
    longer(inputs, rows.as_flattened())
}

/// Atoms as a product search reads them, with garbage past each formula, and after them all or nothing.
#[derive(Clone, Debug)]
pub struct AtomBuffers {
    pub lengths: Vec<u32>,
    pub ops: Vec<u8>,
    pub operands: Vec<u64>,
    pub rows: Vec<u64>,
}

impl AtomBuffers {
    pub fn new(inputs: &mut Inputs, atoms: &[AtomView]) -> Self {
        let mut places = |needed: usize| needed + extra(inputs);
        let [lengths, ops, operands] =
            [1, ATOM_TOKENS, ATOM_TOKENS].map(|n| places(n * atoms.len()));
        let mut buffers = AtomBuffers {
            lengths: garbage_u32(inputs, lengths),
            ops: garbage_u8(inputs, ops),
            operands: garbage_u64(inputs, operands),
            rows: Vec::new(),
        };
        for (slot, atom) in atoms.iter().enumerate() {
            let count = atom.formula.ops.len();
            buffers.lengths[slot] = count as u32;
            buffers.ops[ATOM_TOKENS * slot..][..count].copy_from_slice(&atom.formula.ops);
            buffers.operands[ATOM_TOKENS * slot..][..count].copy_from_slice(&atom.formula.operands);
        }
        let rows: Vec<Row> = atoms.iter().map(|atom| atom.row).collect();
        buffers.rows = flat(inputs, &rows);
        buffers
    }

    /// The first atoms, or as many as are claimed.
    pub fn lend(&self, count: usize) -> WrittenAtoms<'_> {
        WrittenAtoms {
            count,
            lengths: &self.lengths,
            ops: &self.ops,
            operands: &self.operands,
            rows: &self.rows,
        }
    }
}

/// Pairs as a product search reads them, with garbage after them or nothing.
#[derive(Clone, Debug)]
pub struct PairBuffers {
    pub words: Vec<u32>,
    pub rows: Vec<u64>,
    pub order: Vec<u32>,
}

impl PairBuffers {
    pub fn new(inputs: &mut Inputs, index: &IndexView) -> Self {
        let mut longer = |numbers: &[usize]| {
            let mut longer: Vec<u32> = numbers.iter().map(|&number| number as u32).collect();
            let beyond = extra(inputs);
            longer.extend(garbage_u32(inputs, beyond));
            longer
        };
        PairBuffers {
            words: longer(index.pairs.as_flattened()),
            order: longer(&index.order),
            rows: flat(inputs, &index.rows),
        }
    }

    /// The first pairs, or as many as are claimed.
    pub fn lend(&self, count: usize) -> WrittenPairs<'_> {
        WrittenPairs {
            count,
            words: &self.words,
            rows: &self.rows,
            order: &self.order,
        }
    }
}

/// Rules as a closing log reads them, with garbage past each formula, and after them all or nothing.
#[derive(Clone, Debug)]
pub struct RuleBuffers {
    pub ranks: Vec<u32>,
    pub ms: Vec<u32>,
    pub windows: Vec<u32>,
    pub token_counts: Vec<u32>,
    pub ops: Vec<u8>,
    pub operands: Vec<u64>,
}

impl RuleBuffers {
    pub fn new(inputs: &mut Inputs, rules: &[Ranked]) -> Self {
        let mut each = |number: fn(&Ranked) -> usize| {
            let mut numbers: Vec<u32> = rules.iter().map(|rule| number(rule) as u32).collect();
            let beyond = extra(inputs);
            numbers.extend(garbage_u32(inputs, beyond));
            numbers
        };
        let [ranks, ms, windows, token_counts] = [
            each(|ranked| ranked.rank as usize),
            each(|ranked| ranked.rule.m),
            each(|ranked| ranked.rule.window),
            each(|ranked| ranked.rule.formula.ops.len()),
        ];
        let mut places = || TOKENS_MAX * rules.len() + extra(inputs);
        let (ops, operands) = (places(), places());
        let mut buffers = RuleBuffers {
            ranks,
            ms,
            windows,
            token_counts,
            ops: garbage_u8(inputs, ops),
            operands: garbage_u64(inputs, operands),
        };
        for (place, Ranked { rule, .. }) in rules.iter().enumerate() {
            let count = rule.formula.ops.len();
            let ops = &mut buffers.ops[TOKENS_MAX * place..][..count];
            ops.copy_from_slice(&rule.formula.ops);
            let operands = &mut buffers.operands[TOKENS_MAX * place..][..count];
            operands.copy_from_slice(&rule.formula.operands);
        }
        buffers
    }

    /// The first rules, or as many as are claimed.
    pub fn lend(&self, count: usize) -> Rules<'_> {
        Rules {
            count,
            ranks: &self.ranks,
            ms: &self.ms,
            windows: &self.windows,
            token_counts: &self.token_counts,
            ops: &self.ops,
            operands: &self.operands,
        }
    }
}

/// Sixteen points of six words each, garbage past the variables.
pub fn flat_points(inputs: &mut Inputs, points: &[Vec<u64>]) -> Vec<u64> {
    let mut words = garbage_u64(inputs, 96);
    for (place, point) in points.iter().enumerate() {
        words[6 * place..][..point.len()].copy_from_slice(point);
    }
    longer(inputs, &words)
}

/// Buffers of a bank build.
#[derive(Clone, Debug, PartialEq)]
pub struct BankBuffers {
    pub lengths: Vec<u32>,
    pub ops: Vec<u8>,
    pub operands: Vec<u64>,
    pub costs: Vec<u32>,
    pub rows: Vec<u64>,
    pub work: Vec<u32>,
}

impl BankBuffers {
    /// Garbage, of these lengths in the order of the fields.
    pub fn new(inputs: &mut Inputs, lengths: [u64; 6]) -> Self {
        let [tokens, ops, operands, costs, rows, work] = lengths.map(|length| length as usize);
        BankBuffers {
            lengths: garbage_u32(inputs, tokens),
            ops: garbage_u8(inputs, ops),
            operands: garbage_u64(inputs, operands),
            costs: garbage_u32(inputs, costs),
            rows: garbage_u64(inputs, rows),
            work: garbage_u32(inputs, work),
        }
    }

    pub fn lend(&mut self) -> BankArrays<'_> {
        BankArrays {
            lengths: &mut self.lengths,
            ops: &mut self.ops,
            operands: &mut self.operands,
            costs: &mut self.costs,
            rows: &mut self.rows,
            work: &mut self.work,
        }
    }

    /// Writes the atoms as 01 lays them out.
    pub fn write(&mut self, atoms: &[AtomView]) {
        for (slot, atom) in atoms.iter().enumerate() {
            let count = atom.formula.ops.len();
            self.lengths[slot] = count as u32;
            let ops = &mut self.ops[ATOM_TOKENS * slot..][..ATOM_TOKENS];
            ops.fill(NO_TOKEN);
            ops[..count].copy_from_slice(&atom.formula.ops);
            let operands = &mut self.operands[ATOM_TOKENS * slot..][..ATOM_TOKENS];
            operands.fill(0);
            operands[..count].copy_from_slice(&atom.formula.operands);
            self.costs[3 * slot..][..3].copy_from_slice(&atom.cost);
            self.rows[16 * slot..][..16].copy_from_slice(&atom.row);
        }
    }
}

/// Buffers of an index build.
#[derive(Clone, Debug, PartialEq)]
pub struct IndexBuffers {
    pub pairs: Vec<u32>,
    pub rows: Vec<u64>,
    pub order: Vec<u32>,
    pub work: Vec<u32>,
}

impl IndexBuffers {
    /// Garbage, of these lengths in the order of the fields.
    pub fn new(inputs: &mut Inputs, lengths: [usize; 4]) -> Self {
        let [pairs, rows, order, work] = lengths;
        IndexBuffers {
            pairs: garbage_u32(inputs, pairs),
            rows: garbage_u64(inputs, rows),
            order: garbage_u32(inputs, order),
            work: garbage_u32(inputs, work),
        }
    }

    pub fn lend(&mut self) -> IndexArrays<'_> {
        IndexArrays {
            pairs: &mut self.pairs,
            rows: &mut self.rows,
            order: &mut self.order,
            work: &mut self.work,
        }
    }

    /// Writes pairs, their rows and the order list.
    pub fn write(&mut self, pairs: &[[usize; 3]], rows: &[Row], order: &[usize]) {
        put(&mut self.pairs, pairs.as_flattened());
        self.rows[..16 * rows.len()].copy_from_slice(rows.as_flattened());
        put(&mut self.order, order);
    }
}

/// Writes numbers to the first places.
fn put(places: &mut [u32], numbers: &[usize]) {
    for (place, &number) in places.iter_mut().zip(numbers) {
        *place = number as u32;
    }
}

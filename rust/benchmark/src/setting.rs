//! What the calls of one variable count and width work on: points, target, and on both sides a bank and its index.

use oracle::access::{self, Inner, Pool, Row};
use oracle::inputs::Inputs;
use simjaldek::lent::{
    self, Atoms, BankArrays, Built, IndexArrays, PairRows, WrittenAtoms, WrittenPairs,
};
use simjaldek::{ATOMS_MAX, ATOM_TOKENS, PAIRS_MAX, POINT_WORDS, ROW_WORDS};

/// Both sides' bank and index over the points of `make_probe_points` and a random target.
pub struct Setting {
    pub num_vars: u32,
    pub width: u32,
    pub points: Vec<Vec<u64>>,
    pub target: Row,
    pub pool: Pool,
    pub inner: Inner,
    pub ours: Ours,
}

/// Our side: the arrays that are lent, and what the builds said.
pub struct Ours {
    pub points: Vec<u64>,
    pub bank: BankBuffers,
    pub index: IndexBuffers,
    pub atoms: usize,
    pub built: Built,
}

/// The arrays of a bank build.
pub struct BankBuffers {
    pub lengths: Vec<u32>,
    pub ops: Vec<u8>,
    pub operands: Vec<u64>,
    pub costs: Vec<u32>,
    pub rows: Vec<u64>,
    pub work: Vec<u32>,
}

/// The arrays of an index build with the largest limit.
pub struct IndexBuffers {
    pub pairs: Vec<u32>,
    pub rows: Vec<u64>,
    pub order: Vec<u32>,
    pub work: Vec<u32>,
}

impl Setting {
    /// Builds both sides.
    pub fn new(num_vars: u32, width: u32) -> Self {
        let points = access::make_probe_points(num_vars, width);
        let target = random_target(num_vars, width);
        let pool = Pool::build(num_vars, width, &points, target);
        let inner = Inner::build(&pool, width);
        let mut ours = Ours::new(flat_points(&points));
        ours.build_bank(num_vars, width, &target);
        ours.build_index(width);
        Setting {
            num_vars,
            width,
            points,
            target,
            pool,
            inner,
            ours,
        }
    }
}

/// Random words; the seed is of the variable count and the width.
fn random_target(num_vars: u32, width: u32) -> Row {
    inputs(num_vars, width, 0).row(width)
}

/// The generator for one use in a setting.
pub fn inputs(num_vars: u32, width: u32, kind: u64) -> Inputs {
    Inputs::of_kind(u64::from(num_vars) << 16 | u64::from(width) << 8 | kind)
}

/// Sixteen points of six words each, zeros past the variables.
fn flat_points(points: &[Vec<u64>]) -> Vec<u64> {
    let mut words = vec![0; POINT_WORDS * points.len()];
    for (place, point) in words.chunks_exact_mut(POINT_WORDS).zip(points) {
        place[..point.len()].copy_from_slice(point);
    }
    words
}

impl Ours {
    fn new(points: Vec<u64>) -> Self {
        Ours {
            points,
            bank: BankBuffers::new(),
            index: IndexBuffers::new(),
            atoms: 0,
            built: Built {
                pairs: 0,
                cut: false,
            },
        }
    }

    /// Our bank build.
    pub fn build_bank(&mut self, num_vars: u32, width: u32, target: &Row) {
        let built = lent::build_bank(num_vars, width, &self.points, target, self.bank.lend());
        self.atoms = built.expect("points and target are below 2^w");
    }

    /// Our index build.
    pub fn build_index(&mut self, width: u32) {
        let atoms = Atoms {
            count: self.atoms,
            rows: &self.bank.rows,
        };
        let built = lent::build_index(width, atoms, PAIRS_MAX, self.index.lend());
        self.built = built.expect("the arrays are long enough");
    }

    /// The atoms as a product search takes them.
    pub fn atoms(&self) -> WrittenAtoms<'_> {
        WrittenAtoms {
            count: self.atoms,
            lengths: &self.bank.lengths,
            ops: &self.bank.ops,
            operands: &self.bank.operands,
            rows: &self.bank.rows,
        }
    }

    /// The pairs as a product search takes them.
    pub fn pairs(&self) -> WrittenPairs<'_> {
        WrittenPairs {
            count: self.built.pairs,
            words: &self.index.pairs,
            rows: &self.index.rows,
            order: &self.index.order,
        }
    }

    /// The pairs as a residual search takes them.
    pub fn pair_rows(&self) -> PairRows<'_> {
        self.pairs().ordered().unordered()
    }

    /// A pair's row.
    pub fn pair_row(&self, slot: usize) -> Row {
        let row = &self.index.rows[ROW_WORDS * slot..][..ROW_WORDS];
        row.try_into().expect("sixteen words")
    }

    /// An atom's row.
    pub fn atom_row(&self, slot: usize) -> Row {
        let row = &self.bank.rows[ROW_WORDS * slot..][..ROW_WORDS];
        row.try_into().expect("sixteen words")
    }
}

impl BankBuffers {
    pub fn new() -> Self {
        BankBuffers {
            lengths: vec![0; ATOMS_MAX],
            ops: vec![0; ATOM_TOKENS * ATOMS_MAX],
            operands: vec![0; ATOM_TOKENS * ATOMS_MAX],
            costs: vec![0; 3 * ATOMS_MAX],
            rows: vec![0; ROW_WORDS * ATOMS_MAX],
            work: vec![0; lent::work_len(0)],
        }
    }

    pub fn lend(&mut self) -> BankArrays<'_> {
        BankArrays {
            lengths: &mut self.lengths,
            ops: &mut self.ops,
            operands: &mut self.operands,
            costs: &mut self.costs,
            rows: &mut self.rows,
            work: &mut self.work,
        }
    }
}

impl IndexBuffers {
    pub fn new() -> Self {
        IndexBuffers {
            pairs: vec![0; 3 * PAIRS_MAX],
            rows: vec![0; ROW_WORDS * PAIRS_MAX],
            order: vec![0; PAIRS_MAX],
            work: vec![0; lent::work_len(PAIRS_MAX)],
        }
    }

    pub fn lend(&mut self) -> IndexArrays<'_> {
        IndexArrays {
            pairs: &mut self.pairs,
            rows: &mut self.rows,
            order: &mut self.order,
            work: &mut self.work,
        }
    }
}

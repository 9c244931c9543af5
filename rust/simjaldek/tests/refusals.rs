//! What each call refuses, by the least number that applies, and what it leaves alone.

mod common;

use common::{
    one_variable, p2, BankBuffers, IndexBuffers, OwnAtoms, OwnPairs, FILL, FILL_U32, FILL_U64,
};
use simjaldek::lent::{
    self, Atoms, Built, PairRows, Pairs, Records, Rules, Tokens, WrittenAtoms, WrittenPairs,
};
use simjaldek::{
    AtomSlot, Bank, Formula, Gate, Index, Load, Log, LogState, PairSlot, Points, Product,
    RankedRule, Refusal, Rule, Window, ATOMS_MAX, PAIRS_MAX,
};

const P2_POINTS: [u64; 4] = [0, 1, 2, 3];

fn number<T>(answer: Result<T, Refusal>) -> u32 {
    answer.err().map_or(0, Refusal::number)
}

/// Takes the last place off.
fn shorten<T>(array: &mut Vec<T>) {
    array.truncate(array.len() - 1);
}

// ---- the bank build

/// Builds into buffers and gives the refusal; a refused build must leave them as they were.
fn bank_number(nv: u32, w: u32, points: &[u64], target: &[u64], mut buffers: BankBuffers) -> u32 {
    let before = buffers.clone();
    let refused = number(lent::build_bank(nv, w, points, target, buffers.lend()));
    assert_eq!(refused != 0, buffers == before);
    refused
}

#[test]
fn bank_refusals() {
    let points = one_variable(2, &P2_POINTS);
    let points = points.words().as_flattened();
    let target = [0; 16];
    let asked = |nv, w, points: &[u64], target: &[u64]| {
        bank_number(nv, w, points, target, BankBuffers::new())
    };
    assert_eq!(asked(1, 2, points, &target), 0);
    for nv in [0, 7, u32::MAX] {
        assert_eq!(asked(nv, 0, points, &target), 1);
    }
    for w in [0, 65, u32::MAX] {
        assert_eq!(asked(1, w, &[], &target), 2);
    }
    assert_eq!(asked(1, 2, &points[..95], &target), 4);
    assert_eq!(asked(1, 2, points, &target[..15]), 4);
    assert_eq!(asked(1, 1, points, &target), 5);
    assert_eq!(asked(1, 2, points, &[4; 16]), 5);
}

#[test]
fn bank_ignores_words_past_the_count() {
    let words = one_variable(2, &P2_POINTS)
        .words()
        .map(|[word, ..]| [word, 9, 9, 9, 9, 9]);
    let points = Points::new(1, 2, words).unwrap();
    assert_eq!(Bank::build(&points, &[0; 16]), Ok(p2()));
    let (mut buffers, mut zeros) = (BankBuffers::new(), BankBuffers::new());
    let words = words.as_flattened();
    let built = lent::build_bank(1, 2, words, &[0; 16], buffers.lend());
    let words = points.words().as_flattened();
    let as_zeros = lent::build_bank(1, 2, words, &[0; 16], zeros.lend());
    assert_eq!((built, buffers), (as_zeros, zeros));
}

#[test]
fn bank_buffers_one_place_short() {
    let points = one_variable(2, &P2_POINTS);
    let shortened: [fn(&mut BankBuffers); 6] = [
        |buffers| shorten(&mut buffers.lengths),
        |buffers| shorten(&mut buffers.ops),
        |buffers| shorten(&mut buffers.operands),
        |buffers| shorten(&mut buffers.costs),
        |buffers| shorten(&mut buffers.rows),
        |buffers| shorten(&mut buffers.work),
    ];
    for one in shortened {
        let mut buffers = BankBuffers::new();
        one(&mut buffers);
        // 4 comes before 5: the target does not fit the width
        let refused = bank_number(1, 2, points.words().as_flattened(), &[4; 16], buffers);
        assert_eq!(refused, 4);
    }
}

#[test]
fn bank_places_beyond_the_count() {
    let mut buffers = BankBuffers::new();
    let points = one_variable(2, &P2_POINTS);
    let points = points.words().as_flattened();
    let built = lent::build_bank(1, 2, points, &[0; 16], buffers.lend());
    assert_eq!(built, Ok(14));
    assert!(buffers.lengths[14..].iter().all(|&x| x == FILL_U32));
    assert!(buffers.ops[6 * 14..].iter().all(|&x| x == FILL));
    assert!(buffers.operands[6 * 14..].iter().all(|&x| x == FILL_U64));
    assert!(buffers.costs[3 * 14..].iter().all(|&x| x == FILL_U32));
    assert!(buffers.rows[16 * 14..].iter().all(|&x| x == FILL_U64));
    // unused token places of the last atom, `v0 v0 * !`
    assert_eq!(buffers.ops[6 * 13..6 * 14], [1, 1, 3, 7, 255, 255]);
    assert_eq!(buffers.operands[6 * 13..6 * 14], [0; 6]);
}

// ---- the index build

fn index_number(w: u32, atoms: Atoms<'_>, limit: usize, mut buffers: IndexBuffers) -> u32 {
    let before = buffers.clone();
    let refused = number(lent::build_index(w, atoms, limit, buffers.lend()));
    assert_eq!(refused != 0, buffers == before);
    refused
}

#[test]
fn index_refusals() {
    let bank = p2();
    let asked = |w, atoms, limit| index_number(w, atoms, limit, IndexBuffers::new(40));
    let atoms = bank.lend();
    assert_eq!(asked(2, atoms, 40), 0);
    for w in [0, 65] {
        assert_eq!(asked(w, atoms, usize::MAX), 2);
    }
    for limit in [PAIRS_MAX + 1, usize::MAX] {
        assert_eq!(asked(2, atoms, limit), 3);
    }
    assert_eq!(asked(2, atoms, 41), 4);
    for count in [15, usize::MAX] {
        assert_eq!(asked(2, Atoms { count, ..atoms }, 40), 4);
    }
    let rows = vec![0; 16 * (ATOMS_MAX + 1)];
    let many = Atoms {
        count: ATOMS_MAX + 1,
        rows: &rows,
    };
    assert_eq!(asked(2, many, 40), 7);
    for limit in [PAIRS_MAX + 1, usize::MAX] {
        assert_eq!(number(Index::build(&bank, limit)), 3);
    }
}

#[test]
fn index_buffers_one_place_short() {
    let bank = p2();
    let shortened: [fn(&mut IndexBuffers); 4] = [
        |buffers| shorten(&mut buffers.pairs),
        |buffers| shorten(&mut buffers.rows),
        |buffers| shorten(&mut buffers.order),
        |buffers| shorten(&mut buffers.work),
    ];
    for one in shortened {
        let mut buffers = IndexBuffers::new(40);
        one(&mut buffers);
        assert_eq!(index_number(2, bank.lend(), 40, buffers), 4);
    }
}

#[test]
fn index_places_beyond_the_count() {
    let mut buffers = IndexBuffers::new(40);
    let built = lent::build_index(2, p2().lend(), 40, buffers.lend());
    let whole = Built {
        pairs: 36,
        cut: false,
    };
    assert_eq!(built, Ok(whole));
    assert!(buffers.pairs[3 * 36..].iter().all(|&x| x == FILL_U32));
    assert!(buffers.rows[16 * 36..].iter().all(|&x| x == FILL_U64));
    assert!(buffers.order[36..].iter().all(|&x| x == FILL_U32));
}

// ---- candidates and searches

#[test]
fn candidate_refusals() {
    let rows: Vec<u64> = [1, 3].into_iter().flat_map(|word| [word; 16]).collect();
    let good = Pairs {
        count: 2,
        rows: &rows,
        order: &[0, 1],
    };
    let asked = |w, pairs: Pairs<'_>, p, t, places: usize| {
        let mut list = vec![FILL_U32; places];
        let refused = number(lent::candidates(w, pairs, p, t, &mut list));
        assert!(refused == 0 || list.iter().all(|&x| x == FILL_U32));
        refused
    };
    assert_eq!(asked(2, good, 1, 3, 2), 0);
    assert_eq!(asked(0, good, 4, 3, 0), 2);
    assert_eq!(asked(65, good, 4, 3, 0), 2);
    assert_eq!(asked(2, good, 4, 3, 1), 4);
    assert_eq!(asked(2, Pairs { count: 3, ..good }, 1, 3, 3), 4);
    assert_eq!(
        asked(
            2,
            Pairs {
                order: &[0],
                ..good
            },
            1,
            3,
            2
        ),
        4
    );
    let short = Pairs {
        rows: &rows[..31],
        ..good
    };
    assert_eq!(asked(2, short, 1, 3, 2), 4);
    assert_eq!(asked(2, good, 4, 3, 2), 5);
    assert_eq!(asked(2, good, 1, 4, 2), 5);
    for order in [[1u32, 0], [0, 0], [0, 2]] {
        let wrong = Pairs {
            order: &order,
            ..good
        };
        assert_eq!(asked(2, wrong, 1, 3, 2), 8);
        assert_eq!(asked(2, wrong, 1, 4, 2), 5);
    }
}

#[test]
fn too_many_pairs() {
    let count = PAIRS_MAX + 1;
    let (rows, order) = (vec![0; 16 * count], vec![0; count]);
    let pairs = Pairs {
        count,
        rows: &rows,
        order: &order,
    };
    let mut list = vec![0; count];
    assert_eq!(number(lent::candidates(2, pairs, 1, 1, &mut list)), 7);
    let none = Atoms {
        count: 0,
        rows: &[],
    };
    let asked = |pairs, target: &[u64]| number(lent::residual_search(2, none, pairs, target));
    let pairs = pairs.unordered();
    assert_eq!(asked(pairs, &[0; 16]), 7);
    assert_eq!(asked(pairs, &[4; 16]), 5);
    let rows = &rows[1..];
    assert_eq!(asked(PairRows { rows, ..pairs }, &[4; 16]), 4);
    let count = PAIRS_MAX;
    assert_eq!(asked(PairRows { count, rows }, &[0; 16]), 0);
}

#[test]
fn search_refusals() {
    let bank = p2();
    let index = Index::build(&bank, PAIRS_MAX).unwrap();
    assert_eq!(number(index.product_search(&[4; 16])), 5);
    assert_eq!(number(index.candidates(4, 0)), 5);
    assert_eq!(number(index.candidates(0, 4)), 5);
}

#[test]
fn residual_refusals() {
    let bank = p2();
    let index = Index::build(&bank, PAIRS_MAX).unwrap();
    assert_eq!(number(index.residual_search(&[4; 16])), 5);
    let (atoms, pairs, zeros) = (bank.lend(), index.lend().unordered(), [0; 16]);
    let asked =
        |w, atoms, pairs, target: &[u64]| number(lent::residual_search(w, atoms, pairs, target));
    assert_eq!(asked(2, atoms, pairs, &zeros), 0);
    for w in [0, 65, u32::MAX] {
        assert_eq!(asked(w, atoms, pairs, &zeros), 2);
    }
    assert_eq!(asked(2, atoms, pairs, &zeros[..15]), 4);
    for count in [15, usize::MAX / 16 + 1, usize::MAX] {
        assert_eq!(asked(2, Atoms { count, ..atoms }, pairs, &zeros), 4);
    }
    for count in [37, usize::MAX / 16 + 1, usize::MAX] {
        assert_eq!(asked(2, atoms, PairRows { count, ..pairs }, &zeros), 4);
    }
    let rows = &atoms.rows[1..];
    assert_eq!(asked(2, Atoms { rows, ..atoms }, pairs, &zeros), 4);
    let rows = &pairs.rows[1..];
    assert_eq!(asked(2, atoms, PairRows { rows, ..pairs }, &zeros), 4);
    for place in 0..16 {
        let mut target = zeros;
        target[place] = 4;
        assert_eq!(asked(2, atoms, pairs, &target), 5);
        target[place] = 3;
        assert_eq!(asked(2, atoms, pairs, &target), 0);
    }
    let rows = vec![0; 16 * (ATOMS_MAX + 1)];
    let all = Atoms {
        count: ATOMS_MAX,
        rows: &rows,
    };
    assert_eq!(asked(2, all, pairs, &zeros), 0);
    let count = ATOMS_MAX + 1;
    assert_eq!(asked(2, Atoms { count, ..all }, pairs, &zeros), 7);
}

/// The least number counts.
#[test]
fn residual_faults_at_once() {
    let rows = vec![0; 16 * (ATOMS_MAX + 1)];
    let many = Atoms {
        count: ATOMS_MAX + 1,
        rows: &rows,
    };
    let short = Atoms {
        rows: &rows[1..],
        ..many
    };
    let (none, missing) = ([0, 1]).map(|count| PairRows { count, rows: &[] }).into();
    let asked =
        |w, atoms, pairs, target: &[u64]| number(lent::residual_search(w, atoms, pairs, target));
    assert_eq!(asked(0, short, missing, &[4; 15]), 2);
    assert_eq!(asked(65, many, none, &[4; 16]), 2);
    assert_eq!(asked(2, many, none, &[4; 15]), 4);
    assert_eq!(asked(2, short, none, &[4; 16]), 4);
    assert_eq!(asked(2, many, missing, &[4; 16]), 4);
    assert_eq!(asked(2, many, none, &[4; 16]), 5);
    assert_eq!(asked(2, many, none, &[3; 16]), 7);
}

// ---- the product search

/// What a product search is handed: two atoms and two pairs are claimed, of arrays that have more.
#[derive(Clone)]
struct Handed {
    width: u32,
    atom_count: usize,
    atoms: OwnAtoms,
    pair_count: usize,
    pairs: OwnPairs,
    target: Vec<u64>,
}

impl Handed {
    /// What is not refused. Atom 1 has six tokens, with the greatest variable; pair 0 is of the atoms 1 and 0 in this order. What is past
    /// the counts but for another 478 good atoms would be refused.
    fn good() -> Self {
        let mut atoms = vec![("v0", [1; 16]); ATOMS_MAX + 1];
        atoms[1] = ("v5 c9 * ! v0 ^", [6; 16]);
        let mut own = OwnAtoms::new(&atoms);
        own.push(&"v6 +".parse().unwrap(), &[1; 16]);
        let gates = [(Gate::Mul, 1, 0, [3; 16]), (Gate::And, 0, 1, [2; 16])];
        let mut pairs = OwnPairs::new(&gates);
        pairs.words.extend([5, 9, 9]);
        pairs.rows.extend([9; 16]);
        pairs.order.push(0);
        Handed {
            width: 2,
            atom_count: 2,
            atoms: own,
            pair_count: 2,
            pairs,
            target: vec![3; 16],
        }
    }

    fn search(&self) -> Result<Product, Refusal> {
        let atoms = WrittenAtoms {
            count: self.atom_count,
            ..self.atoms.lend()
        };
        let pairs = WrittenPairs {
            count: self.pair_count,
            ..self.pairs.lend()
        };
        lent::product_search(self.width, atoms, pairs, &self.target)
    }

    /// The tokens of atom 1.
    fn tokens(&mut self, length: u32, ops: [u8; 6], operands: [u64; 6]) {
        self.atoms.lengths[1] = length;
        self.atoms.ops[6..12].copy_from_slice(&ops);
        self.atoms.operands[6..12].copy_from_slice(&operands);
    }
}

/// A refusal's number and what brings it about.
type Fault = (u32, fn(&mut Handed));

/// By falling number, so that what is too short can be made by the count that is claimed.
const FAULTS: [Fault; 44] = [
    (8, |h| h.pairs.order.swap(0, 1)),
    (8, |h| h.pairs.order[0] = 0),
    (8, |h| h.pairs.order[1] = 2),
    (8, |h| h.pairs.order[1] = u32::MAX),
    (8, |h| h.pairs.rows[0] = 1),
    (7, |h| h.atom_count = ATOMS_MAX + 1),
    (7, |h| h.pairs.words[0] = 5),
    (7, |h| h.pairs.words[3] = u32::MAX),
    (7, |h| h.pairs.words[1] = h.atom_count as u32),
    (7, |h| h.pairs.words[2] = h.atom_count as u32),
    (7, |h| h.pairs.words[4] = u32::MAX),
    (7, |h| h.pairs.words[5] = 1 << 31),
    (7, |h| h.pair_count = 3),
    (6, |h| h.atoms.lengths[0] = 0),
    (6, |h| h.atoms.lengths[1] = 0),
    (6, |h| h.atoms.lengths[1] = u32::MAX),
    // seven tokens of which the last is the next atom's, and a formula
    (6, |h| {
        h.tokens(7, [1, 7, 7, 7, 7, 7], [0; 6]);
        h.atoms.ops[12] = 7;
    }),
    // an unknown opcode
    (6, |h| h.tokens(1, [9; 6], [0; 6])),
    (6, |h| h.tokens(2, [1, 9, 9, 9, 9, 9], [0; 6])),
    (6, |h| h.tokens(2, [1, 255, 9, 9, 9, 9], [0; 6])),
    // variable 6
    (6, |h| h.tokens(1, [1; 6], [6; 6])),
    (6, |h| h.tokens(3, [1, 1, 2, 9, 9, 9], [0, 6, 0, 9, 9, 9])),
    // a nonzero operand that is not used
    (6, |h| h.tokens(2, [1, 7, 9, 9, 9, 9], [0, 1, 9, 9, 9, 9])),
    (6, |h| h.tokens(3, [1, 1, 3, 9, 9, 9], [0, 0, 1, 9, 9, 9])),
    // operands missing
    (6, |h| h.tokens(2, [1, 2, 9, 9, 9, 9], [0; 6])),
    (6, |h| h.tokens(1, [8; 6], [0; 6])),
    (6, |h| h.tokens(5, [1, 4, 1, 1, 2, 9], [0; 6])),
    // more values than one left
    (6, |h| h.tokens(2, [0, 0, 9, 9, 9, 9], [0; 6])),
    (6, |h| h.tokens(6, [1; 6], [0; 6])),
    (5, |h| h.target[0] = 4),
    (5, |h| h.target[15] = u64::MAX),
    (4, |h| h.atoms.lengths.truncate(h.atom_count - 1)),
    (4, |h| h.atoms.ops.truncate(6 * h.atom_count - 1)),
    (4, |h| h.atoms.operands.truncate(6 * h.atom_count - 1)),
    (4, |h| h.atoms.rows.truncate(16 * h.atom_count - 1)),
    (4, |h| h.pairs.words.truncate(3 * h.pair_count - 1)),
    (4, |h| h.pairs.rows.truncate(16 * h.pair_count - 1)),
    (4, |h| h.pairs.order.truncate(h.pair_count - 1)),
    (4, |h| h.target.truncate(15)),
    (4, |h| h.atom_count = usize::MAX),
    (4, |h| h.pair_count = usize::MAX),
    (2, |h| h.width = 0),
    (2, |h| h.width = 65),
    (2, |h| h.width = u32::MAX),
];

#[test]
fn product_refusals() {
    let shown = Product::AtomPair(AtomSlot(0), PairSlot(0));
    assert_eq!(Handed::good().search(), Ok(shown));
    for (place, (refused, fault)) in FAULTS.iter().enumerate() {
        let mut handed = Handed::good();
        fault(&mut handed);
        assert_eq!(number(handed.search()), *refused, "fault {place}");
    }
}

/// The least number counts: two faults of different numbers.
#[test]
fn product_faults_at_once() {
    for (place, (greater, first)) in FAULTS.iter().enumerate() {
        for (least, second) in FAULTS.iter().filter(|(least, _)| least < greater) {
            let mut handed = Handed::good();
            first(&mut handed);
            second(&mut handed);
            assert_eq!(number(handed.search()), *least, "fault {place}, {least}");
        }
    }
}

/// All of them at once, and one number less after the other.
#[test]
fn product_faults_of_every_number() {
    let mut handed = Handed::good();
    for number_left in [8, 7, 6, 5, 4, 2] {
        let of_number = |(number, _): &&Fault| *number == number_left;
        let (_, fault) = FAULTS.iter().find(of_number).expect("it has a fault");
        fault(&mut handed);
        assert_eq!(number(handed.search()), number_left);
    }
}

/// 479 atoms are not too many, 480 are, and in 479 places they are no 480.
#[test]
fn as_many_atoms_as_there_can_be() {
    let mut handed = Handed::good();
    handed.atom_count = ATOMS_MAX;
    handed.pairs.words[1] = ATOMS_MAX as u32 - 1;
    assert_eq!(number(handed.search()), 0);
    handed.pairs.words[1] = ATOMS_MAX as u32;
    assert_eq!(number(handed.search()), 7);
    handed.atom_count = ATOMS_MAX + 1;
    assert_eq!(number(handed.search()), 7);
    for bad in [0, 1, 477, 478, 479] {
        let mut handed = handed.clone();
        handed.atoms.operands[6 * bad] = 6;
        assert_eq!(number(handed.search()), 6, "atom {bad}");
    }
    handed.atoms.lengths[0] = 0;
    let cut: [fn(&mut OwnAtoms); 4] = [
        |atoms| atoms.lengths.truncate(ATOMS_MAX),
        |atoms| atoms.ops.truncate(6 * ATOMS_MAX),
        |atoms| atoms.operands.truncate(6 * ATOMS_MAX),
        |atoms| atoms.rows.truncate(16 * ATOMS_MAX),
    ];
    for cut in cut {
        let mut handed = handed.clone();
        cut(&mut handed.atoms);
        assert_eq!(number(handed.search()), 4);
    }
}

/// A bad formula among a million claimed atoms is 6, and without it there are too many.
#[test]
fn a_million_atoms() {
    const MILLION: usize = 1_000_000;
    let mut handed = Handed::good();
    handed.atom_count = MILLION;
    handed.atoms = OwnAtoms {
        lengths: vec![1; MILLION],
        ops: vec![0; 6 * MILLION],
        operands: vec![0; 6 * MILLION],
        rows: vec![0; 16 * MILLION],
    };
    assert_eq!(number(handed.search()), 7);
    for bad in [0, 478, 479, 480, 65_536, MILLION - 1] {
        for length in [0, 2, 7] {
            handed.atoms.lengths[bad] = length;
            assert_eq!(number(handed.search()), 6, "atom {bad}");
        }
        handed.atoms.lengths[bad] = 1;
    }
    handed.pair_count = usize::MAX;
    handed.atoms.lengths[MILLION - 1] = 0;
    assert_eq!(number(handed.search()), 4);
}

/// Counts whose products with 3, 6 and 16 are few modulo 2^64.
#[test]
fn counts_that_wrap() {
    for per_entry in [3, 6, 16] {
        let count = usize::MAX / per_entry + 1;
        assert!(count.wrapping_mul(per_entry) < per_entry);
        let mut handed = Handed::good();
        handed.atom_count = count;
        assert_eq!(number(handed.search()), 4);
        let mut handed = Handed::good();
        handed.pair_count = count;
        assert_eq!(number(handed.search()), 4);
    }
}

/// Every claimed pair is looked at, and one more than there can be is too many.
#[test]
fn as_many_pairs_as_there_can_be() {
    let count = PAIRS_MAX + 1;
    let mut handed = Handed::good();
    handed.pairs = OwnPairs {
        words: vec![0; 3 * count],
        rows: vec![1; 16 * count],
        order: (0..count as u32).collect(),
    };
    handed.pair_count = count;
    assert_eq!(number(handed.search()), 7);
    handed.pair_count = PAIRS_MAX;
    assert_eq!(handed.search(), Ok(Product::Nothing));
    for (place, word) in [(0, 5), (1, 2), (2, 2)] {
        let place = 3 * (PAIRS_MAX - 1) + place;
        handed.pairs.words[place] = word;
        assert_eq!(number(handed.search()), 7);
        handed.pairs.words[place] = 0;
    }
    handed.pairs.order.swap(PAIRS_MAX - 2, PAIRS_MAX - 1);
    assert_eq!(number(handed.search()), 8);
    handed.pair_count = count;
    assert_eq!(number(handed.search()), 7);
}

/// With no atom no pair can be claimed.
#[test]
fn pairs_of_no_atoms() {
    let mut handed = Handed::good();
    handed.atom_count = 0;
    assert_eq!(number(handed.search()), 7);
    handed.pair_count = 0;
    assert_eq!(handed.search(), Ok(Product::Nothing));
}

/// What lies past the claimed counts is not searched either, nor a target's words past the sixteenth.
#[test]
fn search_over_fewer_than_lent() {
    let bank = p2();
    let atoms = WrittenAtoms {
        count: 1,
        ..bank.lend_written()
    };
    let pairs = OwnPairs::default();
    let asked = |word: u64| {
        let target = [vec![word; 16], vec![u64::MAX; 3]].concat();
        lent::product_search(2, atoms, pairs.lend(), &target)
    };
    assert_eq!(asked(1), Ok(Product::Nothing));
    let zero_twice = Product::Atoms(AtomSlot(0), AtomSlot(0));
    assert_eq!(asked(0), Ok(zero_twice));
}

// ---- rows of a bank

#[test]
fn row_refusals() {
    let bank = p2();
    let atoms = bank.lend();
    let found = |w, atoms, row: &[u64]| number(lent::find_row(w, atoms, row));
    assert_eq!(found(2, atoms, &[0; 16]), 0);
    assert_eq!(found(0, atoms, &[]), 2);
    assert_eq!(found(2, atoms, &[4; 15]), 4);
    assert_eq!(found(2, Atoms { count: 15, ..atoms }, &[4; 16]), 4);
    assert_eq!(found(2, atoms, &[4; 16]), 5);
    let rows = vec![0; 16 * (ATOMS_MAX + 1)];
    let many = Atoms {
        count: ATOMS_MAX + 1,
        rows: &rows,
    };
    assert_eq!(found(2, many, &[0; 16]), 7);
    let handed = |atoms, slot| number(lent::atom_row(atoms, AtomSlot(slot)));
    assert_eq!(handed(Atoms { count: 15, ..atoms }, 0), 4);
    assert_eq!(handed(many, 0), 7);
    assert_eq!(handed(atoms, 14), 7);
    assert_eq!(handed(atoms, u32::MAX), 7);
    assert_eq!(number(bank.find_row(&[4; 16])), 5);
    for atom in bank.atoms() {
        assert_eq!(lent::atom_row(atoms, atom.slot()), Ok(&atom.row()[..]));
    }
}

// ---- formulas, points, gates

#[test]
fn formula_refusals() {
    let good = Tokens {
        count: 1,
        ops: &[1],
        operands: &[0],
    };
    let points = [0; 96];
    let asked = |nv, w, formula: Tokens<'_>, words: &[u64]| {
        let value = number(lent::evaluate(nv, w, formula, words));
        let row = number(lent::probe_row(nv, w, &points, formula));
        let cost = number(lent::compute_cost(nv, formula));
        [value, row, cost]
    };
    assert_eq!(asked(1, 8, good, &[7]), [0, 0, 0]);
    assert_eq!(asked(0, 8, good, &[7]), [1, 1, 1]);
    assert_eq!(asked(7, 0, good, &[7]), [1, 1, 1]);
    assert_eq!(asked(1, 0, good, &[7]), [2, 2, 0]);
    assert_eq!(asked(1, 65, good, &[7]), [2, 2, 0]);
    assert_eq!(asked(2, 8, good, &[7]), [4, 0, 0]);
    assert_eq!(asked(1, 8, Tokens { count: 2, ..good }, &[7]), [4, 4, 4]);
    let long = Tokens {
        count: usize::MAX,
        ..good
    };
    assert_eq!(asked(1, 8, long, &[7]), [4, 4, 4]);
    let short = Tokens {
        operands: &[],
        ..good
    };
    assert_eq!(asked(1, 8, short, &[7]), [4, 4, 4]);
    assert_eq!(number(lent::probe_row(1, 8, &points[1..], good)), 4);
    let bad: [(&[u8], &[u64]); 7] = [
        (&[], &[]),
        (&[0; 65], &[0; 65]),
        (&[9], &[0]),
        (&[0, 7], &[0, 1]),
        (&[1], &[1]),
        (&[0, 2], &[0, 0]),
        (&[0, 0], &[0, 0]),
    ];
    for (ops, operands) in bad {
        let count = ops.len();
        let formula = Tokens {
            count,
            ops,
            operands,
        };
        assert_eq!(asked(1, 8, formula, &[7]), [6, 6, 6]);
    }
}

/// Draws into filled arrays of so many places and gives the refusal; a refused draw must leave them as they were.
fn draw_number(nv: u32, w: u32, limit: usize, ops: usize, operands: usize) -> u32 {
    let (mut ops, mut operands) = (vec![FILL; ops], vec![FILL_U64; operands]);
    let drawn = lent::draw_formula(1, nv, w, limit, &mut ops, &mut operands);
    let untouched = ops.iter().all(|&x| x == FILL) && operands.iter().all(|&x| x == FILL_U64);
    assert_eq!(drawn.is_err(), untouched);
    number(drawn)
}

#[test]
fn draw_refusals() {
    for limit in [1, 2, 7, 64] {
        for nv in 1..=6 {
            assert_eq!(draw_number(nv, 1, limit, limit, limit), 0);
        }
        assert_eq!(draw_number(6, 64, limit, limit, 100), 0);
        assert_eq!(draw_number(6, 64, limit, limit - 1, 100), 4);
        assert_eq!(draw_number(6, 64, limit, 100, limit - 1), 4);
    }
    for nv in [0, 7, u32::MAX] {
        assert_eq!(draw_number(nv, 8, 7, 7, 7), 1);
    }
    for w in [0, 65, u32::MAX] {
        assert_eq!(draw_number(1, w, 7, 7, 7), 2);
    }
    for limit in [0, 65, usize::MAX] {
        assert_eq!(draw_number(1, 8, limit, 100, 100), 6);
    }
    for (nv, w, limit) in [(0, 8, 7), (1, 0, 7), (1, 8, 0), (7, 65, 65), (6, 65, 0)] {
        let refused = draw_number(nv, w, limit, 100, 100);
        assert_eq!(number(Load::new(1, nv, w, limit)), refused);
    }
}

/// The least number counts; a limit outside is 6 however short the arrays are.
#[test]
fn draw_faults_at_once() {
    assert_eq!(draw_number(0, 0, 0, 0, 0), 1);
    assert_eq!(draw_number(7, 8, 7, 6, 6), 1);
    assert_eq!(draw_number(1, 0, 7, 6, 6), 2);
    assert_eq!(draw_number(1, 65, 65, 64, 64), 2);
    assert_eq!(draw_number(1, 8, 64, 63, 0), 4);
    assert_eq!(draw_number(1, 8, 0, 0, 0), 6);
    assert_eq!(draw_number(1, 8, 65, 0, 64), 6);
    assert_eq!(draw_number(1, 8, usize::MAX, 1, 1), 6);
}

// ---- rules

/// What a rule is handed: a formula of three tokens and two records of two words, in arrays that have more.
#[derive(Clone)]
struct HandedRule {
    num_vars: u32,
    width: u32,
    tokens: usize,
    ops: Vec<u8>,
    operands: Vec<u64>,
    window: Window,
    count: usize,
    records: Vec<u64>,
    answers: usize,
}

impl HandedRule {
    /// What is not refused. What is past the tokens would be.
    fn good() -> Self {
        HandedRule {
            num_vars: 2,
            width: 8,
            tokens: 3,
            ops: vec![1, 1, 4, 9],
            operands: vec![0, 1, 0, 9],
            window: Window {
                least: 3,
                records: 5,
            },
            count: 2,
            records: vec![1, u64::MAX, 1, 2, 3],
            answers: 3,
        }
    }

    /// Runs into filled places: the state after the records. A refused run must leave the places as they were.
    fn run(&self, state: u64) -> Result<u64, Refusal> {
        let mut answers = vec![FILL; self.answers];
        let formula = Tokens {
            count: self.tokens,
            ops: &self.ops,
            operands: &self.operands,
        };
        let (num_vars, width, window) = (self.num_vars, self.width, self.window);
        let records = Records {
            count: self.count,
            words: &self.records,
        };
        let ran = lent::run_rule(
            num_vars,
            width,
            formula,
            window,
            state,
            records,
            &mut answers,
        );
        let written = if ran.is_ok() { self.count } else { 0 };
        assert!(answers[..written].iter().all(|&answer| answer < 2));
        assert!(answers[written..].iter().all(|&answer| answer == FILL));
        ran
    }

    fn number(&self) -> u32 {
        let refused = number(self.run(0));
        assert_eq!(number(self.run(u64::MAX)), refused, "whatever the state");
        refused
    }
}

/// A refusal's number and what brings it about.
type RuleFault = (u32, fn(&mut HandedRule));

/// By falling number.
const RULE_FAULTS: [RuleFault; 37] = [
    (10, |h| h.window.least = 0),
    (10, |h| h.window.least = h.window.records + 1),
    (10, |h| h.window.least = u32::MAX),
    (10, |h| h.window.records = 0),
    (10, |h| h.window.records = 2),
    (10, |h| h.window.records = 65),
    (10, |h| h.window.records = u32::MAX),
    // M is 1 to W, of a W that is none
    (10, |h| {
        h.window = Window {
            least: 65,
            records: 65,
        }
    }),
    // good when cut to fewer bits
    (10, |h| h.window.least = 256 + 3),
    (10, |h| h.window.records = 256 + 5),
    (6, |h| h.tokens = 0),
    (6, |h| h.tokens = 2),
    (6, |h| h.tokens = 4),
    (6, |h| {
        h.tokens = 65;
        h.ops = [vec![1], vec![7; 64]].concat();
        h.operands = vec![0; 65];
    }),
    (6, |h| h.ops[0] = 9),
    (6, |h| h.ops[2] = 255),
    (6, |h| h.operands[1] = 2),
    (6, |h| h.operands[2] = 1),
    // an operand is missing, and two values are left
    (6, |h| (h.ops[1], h.operands[1]) = (7, 0)),
    (6, |h| h.ops[2] = 7),
    (4, |h| {
        h.tokens = 3;
        h.ops.truncate(2);
    }),
    (4, |h| {
        h.tokens = 3;
        h.operands.truncate(2);
    }),
    (4, |h| h.tokens = usize::MAX),
    (4, |h| h.records.truncate(3)),
    (4, |h| h.records.clear()),
    (4, |h| h.answers = 1),
    (4, |h| h.answers = 0),
    (4, |h| h.count = 3),
    (4, |h| h.count = usize::MAX),
    // twice it is 4 modulo 2^64 (and the answers are too few all the same)
    (4, |h| h.count = usize::MAX / 2 + 3),
    (2, |h| h.width = 0),
    (2, |h| h.width = 65),
    (2, |h| h.width = u32::MAX),
    (1, |h| h.num_vars = 0),
    (1, |h| h.num_vars = 7),
    (1, |h| h.num_vars = 256 + 2),
    (1, |h| h.num_vars = u32::MAX),
];

#[test]
fn rule_refusals() {
    // v0 v1 & of 1 with all bits and of 1 with 2: nonzero, zero
    assert_eq!(HandedRule::good().run(1), Ok(0b110));
    for (place, (refused, fault)) in RULE_FAULTS.iter().enumerate() {
        let mut handed = HandedRule::good();
        fault(&mut handed);
        assert_eq!(handed.number(), *refused, "fault {place}");
    }
}

/// The least number counts: two faults of different numbers.
#[test]
fn rule_faults_at_once() {
    for (place, (greater, first)) in RULE_FAULTS.iter().enumerate() {
        for (least, second) in RULE_FAULTS.iter().filter(|(least, _)| least < greater) {
            let mut handed = HandedRule::good();
            first(&mut handed);
            second(&mut handed);
            assert_eq!(handed.number(), *least, "fault {place}, {least}");
        }
    }
}

/// All of them at once, and one number less after the other.
#[test]
fn rule_faults_of_every_number() {
    let mut handed = HandedRule::good();
    for number_left in [10, 6, 4, 2, 1] {
        let of_number = |(number, _): &&RuleFault| *number == number_left;
        let (_, fault) = RULE_FAULTS.iter().find(of_number).expect("it has a fault");
        fault(&mut handed);
        assert_eq!(handed.number(), number_left);
    }
}

/// 10 exactly if M isn't 1 to W or W isn't 1 to 64, with records and without.
#[test]
fn rule_windows() {
    let mut handed = HandedRule::good();
    for least in 0..70 {
        for records in 0..70 {
            handed.window = Window { least, records };
            let fit = (1..=64).contains(&records) && (1..=records).contains(&least);
            for count in [0, 2] {
                handed.count = count;
                assert_eq!(handed.number(), if fit { 0 } else { 10 });
            }
        }
    }
}

/// Arrays that are just long enough, or empty where nothing is needed.
#[test]
fn rule_arrays_as_long_as_needed() {
    for num_vars in 1..=6 {
        let mut handed = HandedRule::good();
        handed.num_vars = num_vars;
        handed.operands[1] = 0;
        for count in [0, 1, 15, 16, 17, 33] {
            let words = num_vars as usize * count;
            handed.count = count;
            (handed.records, handed.answers) = (vec![7; words], count);
            assert_eq!(handed.number(), 0);
            if count > 0 {
                handed.answers = count - 1;
                assert_eq!(handed.number(), 4);
                handed.answers = count;
                handed.records.pop();
                assert_eq!(handed.number(), 4);
            }
        }
    }
}

/// A rule is refused as a call with no records is, and a good one refuses slices that are no whole number of records, and too few places.
#[test]
fn owned_rule_refusals() {
    for (place, (_, fault)) in RULE_FAULTS.iter().enumerate() {
        let mut handed = HandedRule::good();
        fault(&mut handed);
        handed.count = 0;
        let tokens = handed.tokens.min(handed.ops.len());
        let Some(operands) = handed.operands.get(..tokens) else {
            continue;
        };
        handed.tokens = tokens;
        let formula = Formula::new(&handed.ops[..tokens], operands).expect("as many of each");
        let made = Rule::new(handed.num_vars, handed.width, formula, handed.window);
        let refused = made.err().map_or(0, |error| error.refusal().number());
        assert_eq!(refused, handed.number(), "fault {place}");
    }
    let handed = HandedRule::good();
    let formula = Formula::new(&handed.ops[..3], &handed.operands[..3]).expect("as many of each");
    let mut rule = Rule::new(2, 8, formula, handed.window).expect("in range");
    rule.resume(0b101);
    for words in [1, 3, 31, 33, 63] {
        let (records, mut answers) = (vec![7; words], [FILL; 64]);
        assert_eq!(number(rule.feed(&records)), 4);
        assert_eq!(number(rule.feed_into(&records, &mut answers)), 4);
        assert_eq!(number(rule.feed_one(&records)), 4);
        assert_eq!(answers, [FILL; 64]);
    }
    for (words, places) in [(2, 0), (4, 1), (64, 31)] {
        let (records, mut answers) = (vec![7; words], vec![FILL; places]);
        assert_eq!(number(rule.feed_into(&records, &mut answers)), 4);
        assert_eq!(answers, vec![FILL; places]);
    }
    for words in [0, 4] {
        assert_eq!(number(rule.feed_one(&vec![7; words])), 4);
    }
    assert_eq!(rule.state(), 0b101);
    assert_eq!((rule.feed(&[]), rule.state()), (Ok(vec![]), 0b101));
    assert_eq!((rule.feed(&[7, 7]), rule.state()), (Ok(vec![true]), 0b1011));
}

// ---- closing logs

/// What a log is handed: two rules of three tokens and two records of two words, in arrays that have more.
#[derive(Clone)]
struct HandedLog {
    num_vars: u32,
    width: u32,
    rules: usize,
    ranks: Vec<u32>,
    ms: Vec<u32>,
    windows: Vec<u32>,
    token_counts: Vec<u32>,
    ops: Vec<u8>,
    operands: Vec<u64>,
    count: usize,
    records: Vec<u64>,
}

impl HandedLog {
    /// What is not refused. What is past the tokens and past the rules would be.
    fn good() -> Self {
        let mut handed = HandedLog {
            num_vars: 2,
            width: 8,
            rules: 0,
            ranks: vec![],
            ms: vec![],
            windows: vec![],
            token_counts: vec![],
            ops: vec![],
            operands: vec![],
            count: 2,
            records: vec![1, u64::MAX, 1, 2, 3],
        };
        handed.grow(2);
        handed.ranks.swap(0, 1);
        (handed.ms[0], handed.windows[0]) = (3, 5);
        for numbers in [
            &mut handed.ranks,
            &mut handed.ms,
            &mut handed.windows,
            &mut handed.token_counts,
        ] {
            numbers.push(0);
        }
        handed.ops.push(9);
        handed.operands.push(9);
        handed
    }

    /// As many rules as this, each of those that come with the next rank and a window of one record.
    fn grow(&mut self, rules: usize) {
        for place in self.rules..rules {
            let put = |numbers: &mut Vec<u32>, number| {
                numbers.truncate(place);
                numbers.push(number);
            };
            put(&mut self.ranks, place as u32 + 1);
            put(&mut self.ms, 1);
            put(&mut self.windows, 1);
            put(&mut self.token_counts, 3);
            self.ops.truncate(64 * place);
            self.ops.extend([1, 1, 4].into_iter().chain([9; 61]));
            self.operands.truncate(64 * place);
            self.operands.extend([0, 1, 0].into_iter().chain([9; 61]));
            self.rules = place + 1;
        }
    }

    fn run(&self, log: LogState) -> Result<LogState, Refusal> {
        let rules = Rules {
            count: self.rules,
            ranks: &self.ranks,
            ms: &self.ms,
            windows: &self.windows,
            token_counts: &self.token_counts,
            ops: &self.ops,
            operands: &self.operands,
        };
        let records = Records {
            count: self.count,
            words: &self.records,
        };
        lent::run_log(self.num_vars, self.width, rules, log, records)
    }

    fn number(&self) -> u32 {
        let [empty, open] = [LogState::default(), lent::open_log(LogState::default())];
        let any = LogState {
            open: 7,
            rank: 99,
            number: u64::MAX,
            ..open
        };
        let refused = number(self.run(empty));
        for log in [open, any] {
            assert_eq!(number(self.run(log)), refused, "whatever the log");
        }
        // where the records aren't the fault, a record alone is refused alike
        if self.count == 2 && self.records.len() >= 2 * self.num_vars as usize {
            let alone = HandedLog {
                count: 1,
                ..self.clone()
            };
            for log in [empty, open, any] {
                assert_eq!(number(alone.run(log)), refused, "a record alone");
            }
        }
        refused
    }
}

/// A refusal's number and what brings it about.
type LogFault = (u32, fn(&mut HandedLog));

/// By falling number.
const LOG_FAULTS: [LogFault; 51] = [
    (11, |h| h.grow(9)),
    (11, |h| {
        h.grow(9);
        h.ranks[8] = 8;
    }),
    (11, |h| h.grow(100)),
    (11, |h| h.ranks[0] = 0),
    (11, |h| h.ranks[1] = 0),
    (11, |h| h.ranks[1] = 9),
    (11, |h| h.ranks[1] = u32::MAX),
    // good when cut to fewer bits
    (11, |h| h.ranks[0] = 256 + 3),
    (11, |h| h.ranks[1] = h.ranks[0]),
    (11, |h| {
        h.grow(8);
        h.ranks[7] = 2;
    }),
    (11, |h| {
        h.grow(8);
        h.ranks[6] = 8;
    }),
    (10, |h| h.ms[0] = 0),
    (10, |h| h.ms[1] = 2),
    (10, |h| h.ms[1] = 256 + 1),
    (10, |h| h.windows[0] = 2),
    (10, |h| h.windows[1] = 0),
    (10, |h| h.windows[0] = 65),
    // M is 1 to W, of a W that is none
    (10, |h| (h.ms[0], h.windows[0]) = (65, 65)),
    (10, |h| h.windows[1] = 256 + 1),
    (10, |h| h.windows[1] = u32::MAX),
    (10, |h| {
        h.grow(9);
        h.ms[8] = 2;
    }),
    (6, |h| h.token_counts[0] = 0),
    (6, |h| h.token_counts[1] = 0),
    (6, |h| h.token_counts[1] = 2),
    (6, |h| h.token_counts[1] = 4),
    (6, |h| {
        h.ops[1..64].fill(7);
        h.operands[1..64].fill(0);
        h.token_counts[0] = 65;
    }),
    (6, |h| h.token_counts[1] = 256 + 3),
    (6, |h| h.token_counts[1] = u32::MAX),
    (6, |h| h.ops[0] = 9),
    (6, |h| h.ops[64 + 2] = 255),
    (6, |h| h.operands[64 + 1] = 2),
    (6, |h| h.operands[2] = 1),
    // an operand is missing, and two values are left
    (6, |h| (h.ops[1], h.operands[1]) = (7, 0)),
    (6, |h| h.ops[64 + 2] = 7),
    (6, |h| {
        h.grow(9);
        h.ops[8 * 64] = 9;
    }),
    (4, |h| h.ranks.truncate(h.rules - 1)),
    (4, |h| h.ms.truncate(h.rules - 1)),
    (4, |h| h.windows.truncate(h.rules - 1)),
    (4, |h| h.token_counts.truncate(h.rules - 1)),
    // all tokens are there
    (4, |h| h.ops.truncate(64 * h.rules - 1)),
    (4, |h| h.operands.truncate(64 * h.rules - 1)),
    (4, |h| h.rules = usize::MAX),
    // 64 times it is 128 modulo 2^64 (and the other arrays are too short all the same)
    (4, |h| h.rules = (1 << 58) + 2),
    (4, |h| h.records.truncate(3)),
    (4, |h| h.count = 3),
    // twice it is 4 modulo 2^64
    (4, |h| h.count = usize::MAX / 2 + 3),
    (2, |h| h.width = 0),
    (2, |h| h.width = 65),
    (1, |h| h.num_vars = 0),
    (1, |h| h.num_vars = 7),
    (1, |h| h.num_vars = 256 + 2),
];

#[test]
fn log_refusals() {
    // v0 v1 & of 1 with all bits and of 1 with 2: the second rule, of the less rank, fires on the first record
    let closed = LogState {
        open: 1,
        rank: 1,
        number: 2,
        closed_at: 1,
        later: 0,
        windows: [0b10, 0b10, 0, 0, 0, 0, 0, 0],
    };
    let open = lent::open_log(LogState::default());
    assert_eq!(HandedLog::good().run(open), Ok(closed));
    for (place, (refused, fault)) in LOG_FAULTS.iter().enumerate() {
        let mut handed = HandedLog::good();
        fault(&mut handed);
        assert_eq!(handed.number(), *refused, "fault {place}");
        if *refused != 4 {
            handed.count = 0;
            assert_eq!(handed.number(), *refused, "fault {place}, no records");
        }
    }
}

/// The least number counts: two faults of different numbers.
#[test]
fn log_faults_at_once() {
    for (place, (greater, first)) in LOG_FAULTS.iter().enumerate() {
        for (least, second) in LOG_FAULTS.iter().filter(|(least, _)| least < greater) {
            let mut handed = HandedLog::good();
            first(&mut handed);
            second(&mut handed);
            assert_eq!(handed.number(), *least, "fault {place}, {least}");
        }
    }
}

/// All of them at once, and one number less after the other.
#[test]
fn log_faults_of_every_number() {
    let mut handed = HandedLog::good();
    for number_left in [11, 10, 6, 4, 2, 1] {
        let of_number = |(number, _): &&LogFault| *number == number_left;
        let (_, fault) = LOG_FAULTS.iter().find(of_number).expect("it has a fault");
        fault(&mut handed);
        assert_eq!(handed.number(), number_left);
    }
}

/// No rule is 11, after what there is to refuse without one; nothing is asked of the rules' arrays.
#[test]
fn log_without_a_rule() {
    let mut handed = HandedLog::good();
    handed.rules = 0;
    assert_eq!(handed.number(), 11);
    for numbers in [
        &mut handed.ranks,
        &mut handed.ms,
        &mut handed.windows,
        &mut handed.token_counts,
    ] {
        numbers.clear();
    }
    handed.ops.clear();
    handed.operands.clear();
    assert_eq!(handed.number(), 11);
    handed.count = 3;
    assert_eq!(handed.number(), 4);
    handed.width = 65;
    assert_eq!(handed.number(), 2);
    handed.num_vars = 0;
    assert_eq!(handed.number(), 1);
}

/// One to eight rules in arrays that are just long enough, or one place short.
#[test]
fn log_arrays_as_long_as_needed() {
    for rules in 1..=8 {
        let mut handed = HandedLog::good();
        (handed.rules, handed.count) = (0, 0);
        handed.records.clear();
        handed.grow(rules);
        assert_eq!(handed.number(), 0);
        let shortened: [fn(&mut HandedLog); 6] = [
            |h| shorten(&mut h.ranks),
            |h| shorten(&mut h.ms),
            |h| shorten(&mut h.windows),
            |h| shorten(&mut h.token_counts),
            |h| shorten(&mut h.ops),
            |h| shorten(&mut h.operands),
        ];
        for shortened in shortened {
            let mut short = handed.clone();
            shortened(&mut short);
            assert_eq!(short.number(), 4);
        }
    }
}

/// A log is refused as a call with no records is.
#[test]
fn owned_log_refusals() {
    for (place, (_, fault)) in LOG_FAULTS.iter().enumerate() {
        let mut handed = HandedLog::good();
        fault(&mut handed);
        handed.count = 0;
        if handed.number() == 4 {
            continue;
        }
        let rule = |place: usize| {
            let tokens = handed.token_counts[place].min(65) as usize;
            let formula = Formula::new(
                &handed.ops[64 * place..][..tokens],
                &handed.operands[64 * place..][..tokens],
            );
            RankedRule {
                rank: handed.ranks[place],
                formula: formula.expect("as many of each"),
                window: Window {
                    least: handed.ms[place],
                    records: handed.windows[place],
                },
            }
        };
        let rules: Vec<RankedRule<'_>> = (0..handed.rules).map(rule).collect();
        let made = Log::new(handed.num_vars, handed.width, &rules);
        let refused = made.err().map_or(0, |error| error.refusal().number());
        assert_eq!(refused, handed.number(), "fault {place}");
    }
    let none = Log::new(2, 8, &[]).map_err(Refusal::from);
    assert_eq!(number(none), 11);
}

#[test]
fn point_refusals() {
    assert_eq!(number(lent::probe_points(0, 0)), 1);
    assert_eq!(number(lent::probe_points(7, 8)), 1);
    assert_eq!(number(lent::probe_points(6, 0)), 2);
    assert_eq!(number(lent::probe_points(6, 65)), 2);
    for (nv, w) in [(0, 0), (7, 8), (6, 0), (6, 65), (u32::MAX, 65)] {
        let refused = number(lent::probe_points(nv, w));
        assert_eq!(number(Points::standard(nv, w)), refused);
        assert_eq!(number(Points::new(nv, w, [[u64::MAX; 6]; 16])), refused);
    }
}

/// A caller's own points: 5 exactly if a word of a variable reaches 2^w, as a bank build has it.
#[test]
fn own_points() {
    for (nv, w) in [(1, 1), (3, 8), (6, 63), (6, 64)] {
        for place in 0..96 {
            let mut words = *Points::standard(nv, w).unwrap().words();
            words[place / 6][place % 6] = simjaldek::bitmask(w);
            assert_eq!(number(Points::new(nv, w, words)), 0);
            words[place / 6][place % 6] = 1u64.checked_shl(w).unwrap_or(u64::MAX);
            let refused = number(Points::new(nv, w, words));
            assert_eq!(refused == 5, place % 6 < nv as usize && w < 64);
            let points = words.as_flattened();
            let built = bank_number(nv, w, points, &[0; 16], BankBuffers::new());
            assert_eq!(refused, built);
        }
    }
}

#[test]
fn gate_refusals() {
    let (row, short) = ([0; 16], [0; 15]);
    let asked = |a: &[u64], b: &[u64], gate, w| {
        let applied = number(lent::gate_apply(a, b, gate, w));
        assert_eq!(number(lent::gate_residual(a, b, gate, w)), applied);
        assert_eq!(number(lent::gate_matches(a, b, &row, gate, w)), applied);
        applied
    };
    assert_eq!(asked(&row, &row, 4, 64), 0);
    assert_eq!(asked(&short, &row, 5, 0), 2);
    assert_eq!(asked(&short, &row, 5, 65), 2);
    assert_eq!(asked(&short, &row, 5, 8), 4);
    assert_eq!(asked(&row, &short, 5, 8), 4);
    assert_eq!(asked(&row, &row, 5, 8), 6);
    assert_eq!(number(lent::gate_matches(&row, &row, &short, 0, 8)), 4);
    assert_eq!(number(lent::fingerprint(&short)), 4);
}

//! Words at or above 2^w: gates, residuals and matches of them, indexes of lent rows that have them, and product searches there.

mod common;

use common::{repeated, IndexBuffers, OwnAtoms};
use simjaldek::lent::{self, Atoms, Built};
use simjaldek::{bitmask, gate_apply, gate_matches, gate_residual, splitmix64, Gate, Product, Row};
use std::collections::HashSet;

const WIDTH: u32 = 8;

/// Rows of sixteen words of 64 bits, two at a time.
fn rows_of_64_bits() -> impl Iterator<Item = (Row, Row)> {
    let mut state = 9;
    let mut word = move || {
        let (next, word) = splitmix64(state);
        state = next;
        word
    };
    (0..50).map(move |_| {
        (
            std::array::from_fn(|_| word()),
            std::array::from_fn(|_| word()),
        )
    })
}

fn reduced(row: &Row) -> Row {
    row.map(|word| word % (1 << WIDTH))
}

// ---- gates

#[test]
fn gates_reduce() {
    for (a, b) in rows_of_64_bits() {
        for gate in Gate::ALL {
            let given: Row = std::array::from_fn(|i| match gate {
                Gate::And => (a[i] & b[i]) % 256,
                Gate::Or => (a[i] | b[i]) % 256,
                Gate::Xor => (a[i] ^ b[i]) % 256,
                Gate::Add => (a[i] % 256 + b[i] % 256) % 256,
                Gate::Mul => (a[i] % 256) * (b[i] % 256) % 256,
            });
            assert_eq!(gate_apply(&a, &b, gate, WIDTH), Ok(given));
            // one row reduced, or both
            for (a, b) in [
                (reduced(&a), b),
                (a, reduced(&b)),
                (reduced(&a), reduced(&b)),
            ] {
                assert_eq!(gate_apply(&a, &b, gate, WIDTH), Ok(given));
            }
        }
    }
}

#[test]
fn residuals_reduce_and_complete() {
    for (target, a) in rows_of_64_bits() {
        for gate in Gate::ALL {
            let residual = gate_residual(&target, &a, gate, WIDTH).unwrap();
            assert_eq!(residual, reduced(&residual));
            let of_reduced = gate_residual(&reduced(&target), &reduced(&a), gate, WIDTH);
            assert_eq!(of_reduced, Ok(residual));
            if let Gate::Xor | Gate::Add = gate {
                assert_eq!(gate_apply(&a, &residual, gate, WIDTH), Ok(reduced(&target)));
            } else {
                assert_eq!(residual, [0; 16]);
            }
        }
    }
}

/// The target is compared as it is: a bit from 2^w up in one of its words, and there is no match.
#[test]
fn targets_from_above_never_match() {
    for (turn, (a, b)) in rows_of_64_bits().enumerate() {
        for gate in Gate::ALL {
            let given = gate_apply(&a, &b, gate, WIDTH).unwrap();
            assert_eq!(gate_matches(&a, &b, &given, gate, WIDTH), Ok(true));
            let mut above = given;
            above[turn % 16] |= 1 << (8 + turn % 56);
            assert_eq!(gate_matches(&a, &b, &above, gate, WIDTH), Ok(false));
            // as a gate that leaves high bits in place would have it
            let kept = gate_apply(&a, &b, gate, 64).unwrap();
            assert_eq!(gate_matches(&a, &b, &kept, gate, WIDTH), Ok(false));
            assert_eq!(gate_matches(&a, &b, &kept, gate, 64), Ok(true));
        }
    }
}

// ---- indexes and product searches

/// More pairs than three atoms have.
const LIMIT: usize = 40;

fn lend(atoms: &[Row]) -> Atoms<'_> {
    Atoms {
        count: atoms.len(),
        rows: atoms.as_flattened(),
    }
}

/// The whole index of lent rows, and its count. All its words are below 2^w.
fn whole_index(width: u32, atoms: &[Row]) -> (IndexBuffers, usize) {
    let mut index = IndexBuffers::new(LIMIT);
    let built = lent::build_index(width, lend(atoms), LIMIT, index.lend());
    let Ok(Built { pairs, cut: false }) = built else {
        panic!("{built:?} is no whole index");
    };
    let words = &index.rows[..16 * pairs];
    assert!(
        words.iter().all(|&word| word <= bitmask(width)),
        "{atoms:?}"
    );
    (index, pairs)
}

/// Gate, b and c of each pair, and its rows' word, over atoms that are one word sixteen times.
fn pairs_of_words(width: u32, words: &[u64]) -> Vec<([u32; 3], u64)> {
    let atoms: Vec<Row> = words.iter().map(|&word| [word; 16]).collect();
    let (index, count) = whole_index(width, &atoms);
    let pair = |slot: usize| {
        let row: Row = index.rows[16 * slot..][..16].try_into().unwrap();
        assert_eq!(row, [row[0]; 16]);
        (index.pairs[3 * slot..][..3].try_into().unwrap(), row[0])
    };
    (0..count).map(pair).collect()
}

#[test]
fn index_rows_are_reduced() {
    // 1 | 2 is 1 modulo 2, which atom 0 has
    assert_eq!(pairs_of_words(1, &[1, 2]), [([0, 0, 1], 0)]);
    // no atom has the 1 that 0 | 3 is
    assert_eq!(pairs_of_words(1, &[0, 3]), [([1, 0, 1], 1)]);
    // And and Or pass over b = c, so that 2, which 6 & 6 is modulo 4, is no pair's
    assert_eq!(pairs_of_words(2, &[6]), [([2, 0, 0], 0)]);
    // as of the reduced words, but for what the bank holds
    assert_eq!(pairs_of_words(2, &[2]), [([2, 0, 0], 0)]);
    assert_eq!(
        pairs_of_words(8, &[257, 258]),
        [
            ([0, 0, 1], 0),
            ([1, 0, 1], 3),
            ([3, 0, 0], 2),
            ([3, 1, 1], 4),
            ([4, 0, 0], 1),
        ]
    );
}

/// All a × b and a × (b g c) modulo 2^w, And and Or with b = c among them; in arithmetic written here.
fn products(width: u32, atoms: &[Row]) -> HashSet<Row> {
    let apply = |gate: Gate, x: &Row, y: &Row| -> Row {
        let each = |x: u64, y: u64| match gate {
            Gate::And => x & y,
            Gate::Or => x | y,
            Gate::Xor => x ^ y,
            Gate::Add => x.wrapping_add(y),
            Gate::Mul => x.wrapping_mul(y),
        };
        std::array::from_fn(|i| each(x[i], y[i]) & bitmask(width))
    };
    let mut inner: Vec<Row> = atoms.to_vec();
    for gate in Gate::ALL {
        for b in atoms {
            inner.extend(atoms.iter().map(|c| apply(gate, b, c)));
        }
    }
    let both = atoms
        .iter()
        .flat_map(|a| inner.iter().map(move |row| (a, row)));
    both.map(|(a, row)| apply(Gate::Mul, a, row)).collect()
}

/// Searches for these targets, and counts those that are found and those that aren't: the ones that are no product.
fn nothing_exactly(width: u32, atoms: &[Row], targets: &[Row], counts: &mut [usize; 2]) {
    let (index, count) = whole_index(width, atoms);
    let products = products(width, atoms);
    let own = OwnAtoms::of_rows(atoms);
    for target in targets {
        let found = lent::product_search(width, own.lend(), index.written(count), target);
        let nothing = found == Ok(Product::Nothing);
        assert_eq!(
            nothing,
            !products.contains(target),
            "{width} {atoms:?} {target:?}"
        );
        counts[usize::from(nothing)] += 1;
    }
}

/// One to three atoms of one word each, every word below 2^(w + 2), every target.
#[test]
fn nothing_is_true_of_every_word() {
    let mut counts = [0; 2];
    for width in 1..=3 {
        let targets: Vec<Row> = (0..1 << width).map(|word| [word; 16]).collect();
        let words = 0..1u64 << (width + 2);
        for a in words.clone() {
            nothing_exactly(width, &[[a; 16]], &targets, &mut counts);
            for b in a..words.end {
                nothing_exactly(width, &[[a; 16], [b; 16]], &targets, &mut counts);
                for c in b..words.end {
                    let atoms = [[a; 16], [b; 16], [c; 16]];
                    nothing_exactly(width, &atoms, &targets, &mut counts);
                }
            }
        }
    }
    assert!(counts.iter().all(|&count| count > 1000), "{counts:?}");
}

/// The same of random rows of two words over and over.
#[test]
fn nothing_is_true_of_rows() {
    let mut counts = [0; 2];
    let mut state = 4;
    let mut below = |bound: u64| {
        let (next, word) = splitmix64(state);
        state = next;
        word % bound
    };
    for turn in 0..1500 {
        let width = 1 + turn % 3;
        let count = 1 + turn / 3 % 3;
        let bound = 1u64 << (width + 2);
        let atoms: Vec<Row> = (0..count)
            .map(|_| repeated(&[below(bound), below(bound)]))
            .collect();
        let target = |code: u64| repeated(&[code >> width, code & bitmask(width)]);
        let targets: Vec<Row> = (0..1 << (2 * width)).map(target).collect();
        nothing_exactly(width, &atoms, &targets, &mut counts);
    }
    assert!(counts.iter().all(|&count| count > 1000), "{counts:?}");
}

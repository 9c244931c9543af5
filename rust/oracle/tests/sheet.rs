//! The specification's sheet, asked of the originals: what `access` reaches is what the sheet speaks of.

use oracle::access::{self, AtomView, Row};

const PAIRS_MAX: usize = 1 << 18;

fn one_variable(words: &[u64]) -> Vec<Vec<u64>> {
    (0..16).map(|i| vec![words[i % words.len()]]).collect()
}

fn rows(atoms: &[AtomView]) -> Vec<Row> {
    atoms.iter().map(|atom| atom.row).collect()
}

fn repeated(words: &[u64]) -> Row {
    std::array::from_fn(|i| words[i % words.len()])
}

fn p2() -> Vec<AtomView> {
    access::bank(1, 2, &one_variable(&[0, 1, 2, 3]), [0; 16])
}

#[test]
fn p1() {
    let atoms = access::bank(1, 1, &one_variable(&[0, 1]), [0; 16]);
    let costs: Vec<_> = atoms.iter().map(|atom| atom.cost).collect();
    assert_eq!(costs, [[1, 0, 1], [1, 0, 1], [1, 0, 1], [2, 0, 2]]);
    let ops: Vec<_> = atoms.iter().map(|atom| atom.formula.ops.clone()).collect();
    assert_eq!(ops, [vec![0], vec![0], vec![1], vec![1, 7]]);
    assert_eq!(access::index(&rows(&atoms), 1, PAIRS_MAX).all, 0);
}

#[test]
fn p2_last_atom() {
    let atoms = p2();
    assert_eq!(atoms.len(), 14);
    assert_eq!(atoms[13].formula.ops, [1, 1, 3, 7]);
    assert_eq!(atoms[13].row, repeated(&[3, 2]));
}

#[test]
fn p3() {
    let rows = rows(&p2());
    let index = access::index(&rows, 2, PAIRS_MAX);
    assert_eq!((index.pairs.len(), index.all), (36, 36));
    assert_eq!(index.pairs[0], [0, 1, 6]);
    assert_eq!(index.rows[0], repeated(&[1, 0]));
    for limit in [0, 1, 35] {
        let first = access::index(&rows, 2, limit);
        assert_eq!(first.pairs, index.pairs[..limit]);
        assert_eq!((first.rows.len(), first.order.len()), (limit, limit));
    }
}

/// The first words of the candidates among all words of a width, or nothing if the filter is not used.
fn candidate_words(p: u64, t: u64, width: u32) -> Option<Vec<u64>> {
    let words: Vec<u64> = (0..1 << width).collect();
    let (used, list) = access::candidates(&words, p, t, width);
    used.then(|| list.iter().map(|&slot| words[slot]).collect())
}

#[test]
fn p5_to_p7() {
    assert_eq!(candidate_words(6, 4, 8), Some(vec![86, 214]));
    assert_eq!(candidate_words(6, 3, 8), Some(vec![]));
    assert_eq!(candidate_words(0, 0, 8), None);
    assert_eq!(candidate_words(0, 1, 8), Some(vec![]));
    let every_256th: Vec<u64> = (2..65_536).step_by(256).collect();
    assert_eq!(every_256th.last(), Some(&65_282));
    assert_eq!(candidate_words(256, 512, 16), Some(every_256th));
    assert_eq!(candidate_words(512, 512, 16), None);
    assert_eq!(candidate_words(512, 256, 16), Some(vec![]));
}

#[test]
fn p8() {
    let words = [0, 1, u64::MAX - 1, u64::MAX];
    assert_eq!(access::candidates(&words, 1, u64::MAX, 64), (true, vec![3]));
}

#[test]
fn p9() {
    let points: Vec<Vec<u64>> = (0..16).map(|word| vec![word]).collect();
    let slot_of_254 = |target: u64| {
        let atoms = access::bank(1, 8, &points, [target; 16]);
        let slot = atoms.iter().position(|atom| atom.row == [254; 16]);
        slot.map(|slot| (slot, atoms[slot].formula.clone()))
    };
    let (slot, formula) = slot_of_254(0).expect("held by its stock formula");
    assert_eq!((formula.ops, formula.operands), (vec![0, 7], vec![1, 0]));
    let (seeded_slot, seeded) = slot_of_254(254).expect("held by the seed");
    assert_eq!((seeded.ops, seeded.operands), (vec![0], vec![254]));
    assert_eq!(slot, seeded_slot);
}

#[test]
fn p10() {
    let mut target = [0; 16];
    target[..7].fill(1);
    target[7] = 4;
    let points: Vec<Vec<u64>> = (0..16).map(|word| vec![word]).collect();
    let atoms = access::bank(1, 8, &points, target);
    let held = |word: u64| atoms.iter().any(|atom| atom.row == [word; 16]);
    assert!(held(5) && held(1) && !held(4));
}

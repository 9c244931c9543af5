//! The residual search by trying everything: no map, no table.

use crate::access::{Completion, Part, Row};

use super::formulas::GATE_OPS;
use super::gates::{gate_row, gives, residual_row};

/// The numbers of the outer gates, in the order in which they are tried.
pub const OUTER_GATES: [usize; 2] = [2, 3];

/// The first trial whose row completes its atom to the target: Xor, then Add; each atom in turn, with it every bank slot, then every
/// pair slot.
pub fn try_everything(
    target: &Row,
    atoms: &[Row],
    pairs: &[Row],
    width: u32,
) -> Option<Completion> {
    for gate in OUTER_GATES {
        for (atom, row) in atoms.iter().enumerate() {
            let residual = residual_row(target, row, gate, width);
            let slots = (0..atoms.len()).map(Part::Atom);
            for other in slots.chain((0..pairs.len()).map(Part::Pair)) {
                if *row_of(other, atoms, pairs) == residual {
                    return Some(Completion { gate, atom, other });
                }
            }
        }
    }
    None
}

/// The row of a part.
pub fn row_of<'a>(part: Part, atoms: &'a [Row], pairs: &'a [Row]) -> &'a Row {
    match part {
        Part::Atom(slot) => &atoms[slot],
        Part::Pair(slot) => &pairs[slot],
    }
}

/// Whether atoms a, b, c and a gate g give the target as a with b, or as a with (b g c), under either outer gate; there is no
/// index here. With a whole index something is found exactly then, if the atoms' rows are below 2^width, or one of them is 0
/// modulo 2^width.
pub fn is_given(target: &Row, atoms: &[Row], width: u32) -> bool {
    let completes = |row: &Row| {
        let mut outer = OUTER_GATES.iter();
        outer.any(|&gate| atoms.iter().any(|a| gives(a, row, target, gate, width)))
    };
    let inner = |b: &Row| {
        let mut all = (0..GATE_OPS.len()).flat_map(|g| atoms.iter().map(move |c| (g, c)));
        all.any(|(g, c)| completes(&gate_row(b, c, g, width)))
    };
    atoms.iter().any(completes) || atoms.iter().any(inner)
}

#[cfg(test)]
mod tests {
    use super::{is_given, try_everything};
    use crate::access::{self, Completion, Part, Row};
    use crate::inputs::Inputs;
    use crate::spec::gates::are_reduced;
    use crate::spec::index::index;

    fn all(words: &[u64]) -> Vec<Row> {
        words.iter().map(|&word| [word; 16]).collect()
    }

    fn found(gate: usize, atom: usize, other: Part) -> Option<Completion> {
        Some(Completion { gate, atom, other })
    }

    /// The answer over rows all of one word; the originals' loop has the same where all are below 2^width.
    fn ask(width: u32, atoms: &[u64], pairs: &[u64], target: u64) -> Option<Completion> {
        let (atoms, pairs, target) = (all(atoms), all(pairs), [target; 16]);
        let answer = try_everything(&target, &atoms, &pairs, width);
        if are_reduced(&atoms, width) && are_reduced(&pairs, width) {
            let rust = access::completions(&[target], &atoms, &pairs, width);
            assert_eq!(rust, [answer]);
        }
        answer
    }

    #[test]
    fn order() {
        // Xor before Add, though Add has the lesser atom
        assert_eq!(ask(8, &[3, 2, 7], &[], 5), found(2, 1, Part::Atom(2)));
        // the bank before the index, the lesser atom before both
        assert_eq!(ask(8, &[1, 4, 4], &[4, 4], 5), found(2, 0, Part::Atom(1)));
        assert_eq!(ask(8, &[1, 2, 7], &[4], 5), found(2, 0, Part::Pair(0)));
        assert_eq!(ask(8, &[], &[5], 5), None);
    }

    /// Words that reach 2^width: what completes them is reduced, so they are completed and never complete.
    #[test]
    fn raw_rows() {
        assert_eq!(ask(8, &[257, 4], &[], 5), found(2, 0, Part::Atom(1)));
        assert_eq!(ask(8, &[257, 260], &[], 5), None);
        // b below a: 4 completes 257, and 257 isn't the 1 that completes 4
        assert_eq!(ask(8, &[4, 257], &[], 5), found(2, 1, Part::Atom(0)));
        assert_eq!(ask(1, &[2], &[], 0), None);
        assert_eq!(ask(1, &[2], &[0], 0), found(2, 0, Part::Pair(0)));
        // a whole index, and yet 6 ^ 6 is 0
        let whole = index(&all(&[6]), 2, 9);
        assert_eq!((whole.rows, whole.cut), (all(&[0]), false));
        assert_eq!(ask(2, &[6], &[0], 0), None);
        assert!(is_given(&[0; 16], &all(&[6]), 2));
    }

    /// Over whole indexes of reduced rows nothing is found exactly where nothing gives the target: every target of two words.
    #[test]
    fn nothing_exactly() {
        let inputs = &mut Inputs::from_seed(1);
        let mut nothing = 0;
        for width in [1, 2, 3] {
            let row = |x: u64, y: u64| -> Row { std::array::from_fn(|i| [x, y][i % 2]) };
            for count in 0..4 {
                let mut word = || inputs.word_of_width(width);
                let atoms: Vec<Row> = (0..count).map(|_| row(word(), word())).collect();
                let index = access::index(&atoms, width, 1 << 18);
                for code in 0..1 << (2 * width) {
                    let target = row(code >> width, code & ((1 << width) - 1));
                    let answer = try_everything(&target, &atoms, &index.rows, width);
                    assert_eq!(answer.is_some(), is_given(&target, &atoms, width));
                    nothing += usize::from(answer.is_none());
                }
            }
        }
        assert!(nothing > 50, "{nothing}");
    }
}

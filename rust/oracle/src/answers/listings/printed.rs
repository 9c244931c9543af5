//! What the listing program must print: the Rust's bank and index, held against the specification's, as text.

use crate::access::{self, AtomView, IndexView, Row};

use crate::made::banks::BankInput;
use crate::spec::index as spec;
use crate::spec::texts::{formula_line, parted};

/// The text for numbers that are not refused.
pub fn listing(numbers: &[u64]) -> String {
    let (bank, limit) = asked(numbers);
    let atoms = bank.bank();
    let rows: Vec<Row> = atoms.iter().map(|atom| atom.row).collect();
    let index = access::index(&rows, bank.width, limit);
    let expected = spec::index(&rows, bank.width, limit);
    let cut = index.all > limit;
    assert_eq!((&index.pairs, cut), (&expected.pairs, expected.cut));
    text(&atoms, &index, cut)
}

/// Variable count, width, limit, the words of each point in turn, the target row.
fn asked(numbers: &[u64]) -> (BankInput, usize) {
    let num_vars = numbers[0] as usize;
    let (points, target) = numbers[3..].split_at(16 * num_vars);
    let bank = BankInput {
        num_vars: num_vars as u32,
        width: numbers[1] as u32,
        points: points.chunks(num_vars).map(<[u64]>::to_vec).collect(),
        target: target.try_into().expect("sixteen words"),
    };
    (bank, numbers[2] as usize)
}

fn text(atoms: &[AtomView], index: &IndexView, cut: bool) -> String {
    let (count, pairs) = (atoms.len(), index.pairs.len());
    let end = if cut { "cut" } else { "whole" };
    let mut lines = vec![format!("atoms {count} pairs {pairs} {end}\n")];
    lines.extend(atoms.iter().map(|atom| parted(&atom.cost) + "\n"));
    lines.extend(atoms.iter().map(|atom| formula_line(&atom.formula)));
    lines.extend(index.pairs.iter().map(|pair| parted(pair) + "\n"));
    lines.concat()
}

#[cfg(test)]
mod tests {
    use super::listing;

    /// The sheet's P1, letter by letter.
    #[test]
    fn p1() {
        let mut numbers = vec![1, 1, 10];
        numbers.extend([0, 1].repeat(8));
        numbers.extend([0; 16]);
        let printed = "atoms 4 pairs 0 whole\n1 0 1\n1 0 1\n1 0 1\n2 0 2\nc0\nc1\nv0\nv0 !\n";
        assert_eq!(listing(&numbers), printed);
    }
}

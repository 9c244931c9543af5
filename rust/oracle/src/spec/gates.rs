//! Gates on rows, whatever their words: each word as the operation gives it, then modulo 2^width. The one place that says so.

use crate::access::Row;

use super::formulas::{gate_word, ADD, GATE_OPS, XOR};

/// The gate of two rows.
pub fn gate_row(a: &Row, b: &Row, gate: usize, width: u32) -> Row {
    std::array::from_fn(|i| gate_of_words(a[i], b[i], gate, width))
}

fn gate_of_words(a: u64, b: u64, gate: usize, width: u32) -> u64 {
    let word = gate_word(GATE_OPS[gate], a.into(), b.into());
    (word % (1 << width)) as u64
}

/// The row that completes a row to the target under Xor and Add; zeros under the other gates.
pub fn residual_row(target: &Row, a: &Row, gate: usize, width: u32) -> Row {
    let modulus = 1u128 << width;
    std::array::from_fn(|i| {
        let [t, a] = [target[i], a[i]].map(u128::from);
        let word = match GATE_OPS[gate] {
            XOR => t ^ a,
            ADD => t % modulus + modulus - a % modulus,
            _ => 0,
        };
        (word % modulus) as u64
    })
}

/// Whether the gate of two rows is the target, word for word: a target that isn't reduced never is.
pub fn gives(a: &Row, b: &Row, target: &Row, gate: usize, width: u32) -> bool {
    (0..16).all(|i| gate_of_words(a[i], b[i], gate, width) == target[i])
}

/// The words modulo 2^width.
pub fn reduced(row: &Row, width: u32) -> Row {
    row.map(|word| (u128::from(word) % (1 << width)) as u64)
}

/// Whether all words of all rows are below 2^width.
pub fn are_reduced(rows: &[Row], width: u32) -> bool {
    let mut words = rows.as_flattened().iter();
    words.all(|&word| u128::from(word) >> width == 0)
}

#[cfg(test)]
mod tests {
    use super::{are_reduced, gate_row, gives, reduced, residual_row};
    use crate::access;
    use crate::inputs::Inputs;

    /// The originals say the same of reduced rows.
    #[test]
    fn reduced_rows() {
        let inputs = &mut Inputs::from_seed(3);
        for width in 1..=64 {
            let [a, b] = [inputs.row(width), inputs.row(width)];
            for gate in 0..5 {
                let row = gate_row(&a, &b, gate, width);
                assert_eq!(access::gate_apply(a, b, gate, width), row);
                let residual = residual_row(&a, &b, gate, width);
                assert_eq!(access::gate_residual(a, b, gate, width), residual);
                for target in [row, a] {
                    let matches = access::gate_matches(a, b, target, gate, width);
                    assert_eq!(gives(&a, &b, &target, gate, width), matches);
                }
            }
        }
    }

    /// Of any rows: what their reduced rows give, reduced; under Xor and Add the residual completes.
    #[test]
    fn raw_rows() {
        let inputs = &mut Inputs::from_seed(4);
        for width in 1..=64 {
            let [a, b] = [inputs.row(64), inputs.row(64)];
            for gate in 0..5 {
                let row = gate_row(&a, &b, gate, width);
                let [low_a, low_b] = [&a, &b].map(|row| reduced(row, width));
                assert_eq!(row, gate_row(&low_a, &low_b, gate, width));
                let residual = residual_row(&a, &b, gate, width);
                assert_eq!(residual, residual_row(&low_a, &low_b, gate, width));
                assert!(are_reduced(&[row, residual], width));
                let completes = gives(&b, &residual, &low_a, gate, width);
                assert!(completes || ![2, 3].contains(&gate));
                assert_eq!(gives(&a, &b, &a, gate, width), row == a);
            }
        }
    }

    #[test]
    fn words() {
        let all = |word: u64| [word; 16];
        assert_eq!(gate_row(&all(31), &all(19), 0, 4), all(3));
        assert_eq!(gate_row(&all(31), &all(19), 3, 4), all(2));
        assert_eq!(residual_row(&all(5), &all(257), 2, 8), all(4));
        assert_eq!(residual_row(&all(5), &all(257), 3, 8), all(4));
        assert!(gives(&all(31), &all(19), &all(3), 0, 4));
        assert!(!gives(&all(31), &all(19), &all(19), 0, 4));
        assert!(are_reduced(&[all(15)], 4) && !are_reduced(&[all(16)], 4));
        assert!(are_reduced(&[all(u64::MAX)], 64) && are_reduced(&[], 1));
    }
}

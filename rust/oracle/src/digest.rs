//! A digest for lists that would be long as text, simple to compute on either side.

const START: u64 = 0xCBF2_9CE4_8422_2325;
const FACTOR: u64 = 0x100_0000_01B3;

/// For each number v: h = (h ^ v) * FACTOR modulo 2^64, then h = h ^ (h >> 29).
pub fn digest(numbers: impl IntoIterator<Item = u64>) -> u64 {
    numbers.into_iter().fold(START, |digest, number| {
        let product = (digest ^ number).wrapping_mul(FACTOR);
        product ^ (product >> 29)
    })
}

#[cfg(test)]
mod tests {
    use super::digest;
    use crate::inputs::Inputs;

    /// The original fingerprint begins with the digest of its row.
    #[test]
    fn fingerprint_ends_a_digest() {
        let mut inputs = Inputs::of_kind(1001);
        for width in 1..=64 {
            let row = inputs.row(width);
            let mixed = digest(row) ^ (digest(row) >> 32);
            let product = mixed.wrapping_mul(0xFF51_AFD7_ED55_8CCD);
            let fingerprint = product ^ (product >> 32);
            assert_eq!(fingerprint, crate::access::fingerprint(row));
        }
    }

    #[test]
    fn empty() {
        assert_eq!(digest([]), 14_695_981_039_346_656_037);
    }
}

//! Words, rows, points and formulas against arithmetic written here.

use simjaldek::lent::{token_at, Tokens};
use simjaldek::{
    bitmask, evaluate, fingerprint, gate_apply, gate_matches, gate_residual, is_formula, mod_add,
    mod_inverse_odd, mod_mul, mod_neg, mod_not, mod_sub, reduce, wrapping_mul, Cost, Formula,
    FormulaBuf, Gate, Points, Refusal, Row, Token,
};

fn splitmix64(state: &mut u64) -> u64 {
    *state = state.wrapping_add(0x9E37_79B9_7F4A_7C15);
    let z = (*state ^ (*state >> 30)).wrapping_mul(0xBF58_476D_1CE4_E5B9);
    let z = (z ^ (z >> 27)).wrapping_mul(0x94D0_49BB_1331_11EB);
    z ^ (z >> 31)
}

fn mask(width: u32) -> u64 {
    u64::MAX >> (64 - width)
}

fn random_row(state: &mut u64) -> Row {
    std::array::from_fn(|_| splitmix64(state))
}

#[test]
fn bitmasks() {
    assert_eq!([0, 1, 63].map(bitmask), [0, 1, u64::MAX >> 1]);
    assert_eq!([64, 65, u32::MAX].map(bitmask), [u64::MAX; 3]);
}

#[test]
fn sums() {
    let mut state = 3;
    for width in [1, 2, 8, 33, 63, 64, 65, u32::MAX] {
        let mask = mask(width.min(64));
        for _ in 0..100 {
            let (a, b) = (splitmix64(&mut state), splitmix64(&mut state));
            assert_eq!(reduce(a, width), a & mask);
            assert_eq!(wrapping_mul(a, b), a.wrapping_mul(b));
            assert_eq!(mod_add(a, b, width), a.wrapping_add(b) & mask);
            assert_eq!(mod_sub(a, b, width), a.wrapping_sub(b) & mask);
            assert_eq!(mod_mul(a, b, width), a.wrapping_mul(b) & mask);
            assert_eq!(mod_not(a, width), !a & mask);
            assert_eq!(mod_neg(a, width), a.wrapping_neg() & mask);
        }
    }
    assert_eq!([reduce(7, 0), mod_add(1, 1, 0), mod_not(0, 0)], [0; 3]);
}

#[test]
fn inverses() {
    for (m, k) in [(1, 1), (3, 8), (255, 8), (5, 64), (u64::MAX, 64), (7, 33)] {
        let inverse = mod_inverse_odd(m, k);
        assert_eq!(m.wrapping_mul(inverse) & mask(k), 1);
        assert_eq!(inverse & mask(k), inverse);
    }
    assert_eq!([mod_inverse_odd(6, 8), mod_inverse_odd(3, 0)], [0, 0]);
}

#[test]
fn draws() {
    let mut state = 7;
    let word = splitmix64(&mut state);
    assert_eq!(simjaldek::splitmix64(7), (state, word));
    // published: the first word from state 0
    assert_eq!(simjaldek::splitmix64(0).1, 0xE220_A839_7B1D_CDAF);
}

#[test]
fn better_costs() {
    let cost = |size, products, depth| Cost {
        size,
        products,
        depth,
    };
    let few = [
        cost(0, 0, 0),
        cost(1, 0, 2),
        cost(1, 1, 0),
        cost(2, 0, 1),
        cost(u32::MAX, 1, 1),
    ];
    for (i, a) in few.into_iter().enumerate() {
        for (j, b) in few.into_iter().enumerate() {
            assert_eq!(a.is_better(b), i < j);
        }
    }
}

#[test]
fn points() {
    for (num_vars, width) in [(1, 64), (3, 7), (6, 1)] {
        let mut state = 0xC0B4A;
        let points = Points::standard(num_vars, width).unwrap();
        assert_eq!((points.num_vars(), points.width()), (num_vars, width));
        for &point in points.words() {
            for (place, word) in point.into_iter().enumerate() {
                let drawn = (place < num_vars as usize).then(|| splitmix64(&mut state));
                assert_eq!(word, drawn.unwrap_or(0) & mask(width));
            }
        }
    }
}

#[test]
fn fingerprints() {
    let mut state = 1;
    let row = random_row(&mut state);
    let mix = |h: u64, v: u64| {
        let x = (h ^ v).wrapping_mul(0x100_0000_01B3);
        x ^ (x >> 29)
    };
    let h = row.into_iter().fold(0xCBF2_9CE4_8422_2325, mix);
    let x = (h ^ (h >> 32)).wrapping_mul(0xFF51_AFD7_ED55_8CCD);
    assert_eq!(fingerprint(&row), x ^ (x >> 32));
}

#[test]
fn gates() {
    let mut state = 2;
    let (a, b) = (random_row(&mut state), random_row(&mut state));
    for width in [1, 8, 33, 64] {
        for gate in Gate::ALL {
            let each = |x: u64, y: u64| match gate {
                Gate::And => x & y,
                Gate::Or => x | y,
                Gate::Xor => x ^ y,
                Gate::Add => x.wrapping_add(y),
                Gate::Mul => x.wrapping_mul(y),
            };
            let target: Row = std::array::from_fn(|i| each(a[i], b[i]) & mask(width));
            assert_eq!(gate_apply(&a, &b, gate, width), Ok(target));
            assert_eq!(gate_matches(&a, &b, &target, gate, width), Ok(true));
            let mut other = target;
            other[15] ^= 1;
            assert_eq!(gate_matches(&a, &b, &other, gate, width), Ok(false));
            let residual: Row = std::array::from_fn(|i| match gate {
                Gate::Xor | Gate::Add => b[i] & mask(width),
                _ => 0,
            });
            assert_eq!(gate_residual(&target, &a, gate, width), Ok(residual));
        }
    }
    assert_eq!(gate_apply(&a, &b, Gate::And, 0), Err(Refusal::Width));
}

#[test]
fn values_and_rows() {
    let formula: FormulaBuf = "v0 v1 + c5 * v1 ! ^ v0 - | v1 c9 & +".parse().unwrap();
    let value = |x: u64, y: u64| {
        let left = x.wrapping_add(y).wrapping_mul(5) ^ !y;
        (left | x.wrapping_neg()).wrapping_add(y & 9)
    };
    for width in [1, 8, 64] {
        let points = Points::standard(2, width).unwrap();
        let words = points.words();
        let row = words.map(|point| value(point[0], point[1]) & mask(width));
        let formula = formula.as_formula();
        assert_eq!(points.row(formula), Ok(row));
        assert_eq!(evaluate(2, width, formula, &words[0]), Ok(row[0]));
        assert_eq!(points.evaluate(formula, &words[0][..2]), Ok(row[0]));
        let few = points.evaluate(formula, &words[0][..1]).unwrap_err();
        assert_eq!((few.refusal(), few.fault()), (Refusal::ShortArray, None));
    }
}

#[test]
fn texts_and_tokens() {
    let text = "c18446744073709551615 v5 + c1 * v0 & v1 | v2 ^ ! -";
    let formula: FormulaBuf = text.parse().unwrap();
    assert_eq!(formula.to_string(), text);
    let ops = [0, 1, 2, 0, 3, 1, 4, 1, 5, 1, 6, 7, 8];
    assert_eq!(formula.as_formula().ops(), ops);
    let again: FormulaBuf = formula.as_formula().tokens().collect();
    assert_eq!(again, formula);
    assert!("v0 ?".parse::<FormulaBuf>().is_err() && "v".parse::<FormulaBuf>().is_err());
    let bad = Formula::new(&[9, 2], &[0, 1]).unwrap();
    let tokens: Vec<Token> = bad.tokens().collect();
    assert_eq!(tokens, [Token::Bad(9, 0), Token::Bad(2, 1)]);
    assert_eq!(Token::Bad(2, 1).parts(), (2, 1));
    assert_eq!(Token::Bad(2, 0).parts(), (255, 0));
    assert_eq!(Token::Bad(0, 7).parts(), (255, 7));
    assert_eq!(bad.to_string(), "? ?");
    assert_eq!(Formula::new(&[0], &[]), None);
}

#[test]
fn tokens_at_places() {
    for opcode in 0..=u8::MAX {
        for operand in [0, 1, u64::MAX] {
            let told = token_at(&[9, opcode], &[0, operand], 1);
            match Token::of(opcode, operand) {
                Token::Bad(..) => assert_eq!(told, Token::Bad(255, 0)),
                token => assert_eq!(told, token),
            }
        }
    }
    assert_eq!(token_at(&[2, 2], &[0], 1), Token::Bad(255, 0));
    assert_eq!(token_at(&[2], &[0, 0], 1), Token::Bad(255, 0));
    assert_eq!(token_at(&[], &[], usize::MAX), Token::Bad(255, 0));
}

#[test]
fn formulas_tested() {
    let is = |num_vars, text: &str| {
        let formula: FormulaBuf = text.parse().unwrap();
        is_formula(num_vars, formula.as_formula())
    };
    assert!(is(1, "v0") && is(2, "v0 v1 +") && is(1, "c7 ! -"));
    assert!(!is(1, "v1") && !is(1, "v0 +") && !is(1, "v0 v0") && !is(1, ""));
    assert!(is(1, &format!("v0{}", " -".repeat(63))));
    assert!(!is(1, &format!("v0{}", " -".repeat(64))));
    // tokens past the end of an array are none
    let short = Tokens {
        count: 2,
        ops: &[1, 7],
        operands: &[0],
    };
    assert!(!simjaldek::lent::is_formula(1, short));
}

#[test]
fn refusals_by_number() {
    for number in 0..13 {
        let refusal = Refusal::from_number(number);
        assert_eq!(refusal.number(), number);
        assert!(refusal
            .to_string()
            .starts_with(&format!("refused {number}: ")));
        assert_eq!(
            matches!(refusal, Refusal::Other(_)),
            !(1..=11).contains(&number)
        );
    }
}

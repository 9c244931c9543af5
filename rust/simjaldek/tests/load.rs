//! Drawn formulas against a plain statement of the draw, which asks of each opcode whether some tokens complete it; and what a load keeps:
//! the same inputs, the same formulas; the state that runs on; the places past the count.

mod common;

use common::{FILL, FILL_U64};
use simjaldek::lent::{draw_formula, Drawn};
use simjaldek::{
    bitmask, is_formula, listing, Bank, Formula, FormulaBuf, Load, Points, FORMULA_TOKENS_MAX,
};

const SEEDS: [u64; 4] = [0, 1, 0x5EED, u64::MAX];
const WIDTHS: [u32; 6] = [1, 8, 32, 33, 63, 64];
const LIMITS: [usize; 6] = [1, 2, 3, 7, 63, 64];

/// Values that each opcode takes, in number order; each leaves one.
const TAKES: [usize; 9] = [0, 0, 2, 2, 2, 2, 2, 1, 1];

/// Opcode and operand of each token.
type Tokens = Vec<(u8, u64)>;

/// A draw: one step of splitmix64.
fn draw(state: &mut u64) -> u64 {
    *state = state.wrapping_add(0x9E37_79B9_7F4A_7C15);
    let z = (*state ^ (*state >> 30)).wrapping_mul(0xBF58_476D_1CE4_E5B9);
    let z = (z ^ (z >> 27)).wrapping_mul(0x94D0_49BB_1331_11EB);
    z ^ (z >> 31)
}

/// For each count of tokens that are left and each count of values there, whether some such tokens leave exactly one value.
struct Completions(Vec<Vec<bool>>);

impl Completions {
    fn new() -> Self {
        let most = FORMULA_TOKENS_MAX + 2;
        let mut table: Vec<Vec<bool>> = vec![(0..=most).map(|values| values == 1).collect()];
        for left in 1..=FORMULA_TOKENS_MAX {
            let after = |values: usize, takes: usize| {
                let rest = values.checked_sub(takes)? + 1;
                table[left - 1].get(rest).copied()
            };
            let completes = |values| {
                TAKES
                    .iter()
                    .any(|&takes| after(values, takes) == Some(true))
            };
            let row = (0..=most).map(completes).collect();
            table.push(row);
        }
        Completions(table)
    }

    /// A formula by the request's sentences, from a state that runs on.
    fn drawn(&self, state: &mut u64, num_vars: u32, width: u32, limit: usize) -> Tokens {
        let length = 1 + (draw(state) % limit as u64) as usize;
        let mut values = 0;
        let mut tokens = Vec::new();
        for left in (0..length).rev() {
            let fits = |&op: &usize| TAKES[op] <= values && self.0[left][values - TAKES[op] + 1];
            let choices: Vec<usize> = (0..TAKES.len()).filter(fits).collect();
            let op = choices[(draw(state) % choices.len() as u64) as usize];
            let operand = match op {
                0 => draw(state) & (u64::MAX >> (64 - width)),
                1 => draw(state) % u64::from(num_vars),
                _ => 0,
            };
            values = values - TAKES[op] + 1;
            tokens.push((op as u8, operand));
        }
        tokens
    }
}

fn tokens_of(formula: Formula<'_>) -> Tokens {
    let parts = formula.ops().iter().zip(formula.operands());
    parts.map(|(&op, &operand)| (op, operand)).collect()
}

fn load(seed: u64, num_vars: u32, width: u32, limit: usize) -> Load {
    Load::new(seed, num_vars, width, limit).expect("in range")
}

/// Each load of the tests' seeds, variable counts, widths and limits.
fn loads() -> impl Iterator<Item = Load> {
    SEEDS.into_iter().flat_map(|seed| {
        (1..=6).flat_map(move |num_vars| {
            WIDTHS.into_iter().flat_map(move |width| {
                LIMITS
                    .into_iter()
                    .map(move |limit| load(seed, num_vars, width, limit))
            })
        })
    })
}

/// The first formulas of a seed, as they were worked out apart from this crate.
#[test]
fn first_formulas() {
    let lines = |load: &mut Load, n| -> Vec<String> {
        let formulas = load.take(n);
        formulas.map(|formula| formula.to_string()).collect()
    };
    let seed_1 = &mut load(1, 2, 32, 7);
    let texts = [
        "v0 - -",
        "v1 c1952540566 &",
        "c2430050954 c2776189499 +",
        "c1945068808 ! c3511979981 | - -",
        "v1 ! !",
    ];
    assert_eq!(lines(seed_1, 5), texts);
    assert_eq!(seed_1.state(), 2934021998537672332);
    let seed_7 = &mut load(7, 6, 63, 64);
    let text = "c7392729709960833538 - ! v4 * v5 v4 * & ! c7002636727014905519 - + \
                c3220187636107557935 + v1 | v0 ^ - v4 | c5212851896957457618 *";
    assert_eq!(lines(seed_7, 1), [text]);
    assert_eq!(seed_7.state(), 11643393128411363046);
}

#[test]
fn as_the_plain_statement_draws() {
    let plain = Completions::new();
    for mut ours in loads() {
        let (num_vars, width, limit) = (ours.num_vars(), ours.width(), ours.limit());
        let mut state = ours.state();
        for _ in 0..30 {
            let tokens = plain.drawn(&mut state, num_vars, width, limit);
            let formula = ours.next().expect("a load has no end");
            assert_eq!(tokens_of(formula.as_formula()), tokens);
            assert_eq!(ours.state(), state);
        }
    }
}

#[test]
fn formulas_of_the_variables_and_the_width() {
    for load in loads() {
        let (num_vars, width, limit) = (load.num_vars(), load.width(), load.limit());
        for formula in load.take(30) {
            let formula = formula.as_formula();
            assert!((1..=limit).contains(&formula.len()));
            assert!(is_formula(num_vars, formula), "{formula}");
            assert_eq!(formula.cut_constants(width).count(), 0, "{formula}");
        }
    }
}

/// With limit 1 there are constants and variables alone, and every variable and both constants of a width of 1 come.
#[test]
fn single_tokens() {
    for num_vars in 1..=6 {
        let mut texts: Vec<String> = load(3, num_vars, 1, 1)
            .take(200)
            .map(|formula| formula.to_string())
            .collect();
        texts.sort_unstable();
        texts.dedup();
        let constants = (0..2).map(|word| format!("c{word}"));
        let variables = (0..num_vars).map(|number| format!("v{number}"));
        assert_eq!(texts, constants.chain(variables).collect::<Vec<_>>());
    }
}

/// Every length up to the limit comes, and every opcode.
#[test]
fn lengths_and_opcodes() {
    let mut lengths = [0; FORMULA_TOKENS_MAX + 1];
    let mut opcodes = [0; TAKES.len()];
    for formula in load(9, 6, 64, FORMULA_TOKENS_MAX).take(2000) {
        lengths[formula.as_formula().len()] += 1;
        for &op in formula.as_formula().ops() {
            opcodes[usize::from(op)] += 1;
        }
    }
    assert_eq!(lengths[0], 0);
    assert!(lengths[1..].iter().all(|&n| n > 0), "{lengths:?}");
    assert!(opcodes.iter().all(|&n| n > 0), "{opcodes:?}");
}

#[test]
fn the_same_inputs_the_same_load() {
    let whole: Vec<FormulaBuf> = load(4, 3, 16, 12).take(1000).collect();
    for n in [0, 1, 999] {
        let shorter: Vec<FormulaBuf> = load(4, 3, 16, 12).take(n).collect();
        assert_eq!(shorter, whole[..n]);
    }
    let others = [
        load(5, 3, 16, 12),
        load(4, 2, 16, 12),
        load(4, 3, 15, 12),
        load(4, 3, 16, 11),
    ];
    for other in others {
        assert!(!other.take(1000).eq(whole.iter().cloned()));
    }
}

#[test]
fn the_state_runs_on() {
    let whole: Vec<FormulaBuf> = load(4, 3, 16, 12).take(100).collect();
    let mut first = load(4, 3, 16, 12);
    for (place, formula) in whole.iter().enumerate() {
        let rest = load(first.state(), 3, 16, 12);
        assert_eq!(rest, first);
        assert!(rest.take(100 - place).eq(whole[place..].iter().cloned()));
        assert_eq!(first.next().as_ref(), Some(formula));
    }
}

/// A width takes away high bits of the constants, and nothing else of a load.
#[test]
fn narrower_constants() {
    let wide = load(6, 4, 64, 20).take(300);
    let narrow = load(6, 4, 5, 20).take(300);
    for (wide, narrow) in wide.zip(narrow) {
        let cut = |(op, operand)| {
            if op == 0 {
                (op, operand & bitmask(5))
            } else {
                (op, operand)
            }
        };
        let tokens = tokens_of(wide.as_formula()).into_iter().map(cut);
        assert_eq!(tokens.collect::<Tokens>(), tokens_of(narrow.as_formula()));
    }
}

/// In arrays as long as the limit, longer, and of two lengths: the formula's places are written, all others stay.
#[test]
fn places_past_the_count() {
    for (limit, more) in [
        (1, [0, 0]),
        (7, [0, 0]),
        (7, [3, 0]),
        (7, [0, 90]),
        (64, [5, 6]),
    ] {
        let mut load = load(8, 5, 40, limit);
        for _ in 0..50 {
            let mut ops = vec![FILL; limit + more[0]];
            let mut operands = vec![FILL_U64; limit + more[1]];
            let drawn = draw_formula(load.state(), 5, 40, limit, &mut ops, &mut operands);
            let formula = load.next().expect("a load has no end");
            let (formula, state) = (formula.as_formula(), load.state());
            let count = formula.len();
            assert_eq!(drawn, Ok(Drawn { count, state }));
            assert_eq!(&ops[..count], formula.ops());
            assert_eq!(&operands[..count], formula.operands());
            assert!(ops[count..].iter().all(|&op| op == FILL));
            assert!(operands[count..].iter().all(|&word| word == FILL_U64));
        }
    }
}

/// A formula's text is read back as the same formula, and has the listing's form: a listing has each atom's text as `Formula` writes it.
#[test]
fn text_of_the_listing() {
    for formula in load(2, 6, 64, 64).take(500) {
        assert_eq!(formula.to_string().parse().as_ref(), Ok(&formula));
    }
    let points = Points::standard(2, 8).unwrap();
    let bank = Bank::build(&points, &[7; 16]).unwrap();
    let mut text = "2 8 0".to_owned();
    for point in points.words() {
        text += &format!(" {} {}", point[0], point[1]);
    }
    text += &" 7".repeat(16);
    let listed = String::from_utf8(listing(text.as_bytes())).unwrap();
    for atom in bank.atoms() {
        let formula = atom.formula();
        assert!(
            listed.lines().any(|line| line == formula.to_string()),
            "{formula}"
        );
    }
}

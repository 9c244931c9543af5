//! The differences by named inputs: those known before, and the smallest that `smallest` finds. Each is asked anew, and both
//! answers must be as stated.

use crate::access::{self, AtomView, Formula, IndexView, Row, Trial};

use super::{Setting, PAIRS_MAX};
use crate::inputs::{one_variable, repeated};
use crate::made::banks::BankInput;
use crate::spec::formulas::{cost, CONSTANT, NOT, VARIABLE};
use crate::spec::product;

/// An input of one variable: the bank's width, points and target (one word throughout), the widths of index and search, the
/// row searched for; then the specification's answer and the Rust's.
pub struct Input {
    name: &'static str,
    bank_width: u32,
    points: &'static [u64],
    bank_target: u64,
    pub index_width: u32,
    pub width: u32,
    target: &'static [u64],
    pub answer: Trial,
    pub rust: Option<Trial>,
}

impl Input {
    pub fn bank(&self) -> BankInput {
        BankInput {
            num_vars: 1,
            width: self.bank_width,
            points: one_variable(self.points),
            target: [self.bank_target; 16],
        }
    }

    /// The row searched for.
    pub fn row(&self) -> Row {
        repeated(self.target)
    }
}

/// D1: no two atoms fit, and the Rust's product loop misses every pair that does.
pub const MISSED: [Input; 3] = [
    Input {
        name: "D1, known",
        bank_width: 3,
        points: &[0, 1, 2, 3],
        bank_target: 0,
        index_width: 3,
        width: 2,
        target: &[3, 1, 3, 3],
        answer: Trial::AtomPair(1, 74),
        rust: None,
    },
    Input {
        name: "D1, least widths",
        bank_width: 3,
        points: &[0, 1, 2, 7],
        bank_target: 0,
        index_width: 3,
        width: 2,
        target: &[1, 0, 1, 2],
        answer: Trial::AtomPair(11, 52),
        rust: None,
    },
    Input {
        name: "D1, fewest atoms",
        bank_width: 5,
        points: &[0],
        bank_target: 0,
        index_width: 5,
        width: 4,
        target: &[11],
        answer: Trial::AtomPair(1, 3),
        rust: None,
    },
];

/// D2 where two atoms fit: a listed pair is cheaper than the Rust's two atoms.
pub const CHEAPER_PAIR: [Input; 3] = [
    Input {
        name: "D2, a pair cheaper than two atoms, P2's bank",
        bank_width: 2,
        points: &[0, 1, 2, 3],
        bank_target: 0,
        index_width: 2,
        width: 2,
        target: &[0, 0, 2, 2],
        answer: Trial::AtomPair(1, 1),
        rust: Some(Trial::Atoms(4, 9)),
    },
    Input {
        name: "D2, a pair cheaper than two atoms, least width",
        bank_width: 2,
        points: &[0, 3],
        bank_target: 0,
        index_width: 2,
        width: 2,
        target: &[1, 3],
        answer: Trial::AtomPair(1, 1),
        rust: Some(Trial::Atoms(3, 10)),
    },
    Input {
        name: "D2, a pair cheaper than two atoms, fewest atoms",
        bank_width: 3,
        points: &[0, 4],
        bank_target: 0,
        index_width: 3,
        width: 3,
        target: &[5, 1],
        answer: Trial::AtomPair(5, 3),
        rust: Some(Trial::Atoms(7, 8)),
    },
];

/// D2 where no two atoms fit: another pair is cheaper than the Rust's, which is the first.
pub const LATER_PAIR: [Input; 3] = [
    Input {
        name: "D2, a pair cheaper than the first, P2's bank",
        bank_width: 2,
        points: &[0, 1, 2, 3],
        bank_target: 0,
        index_width: 2,
        width: 2,
        target: &[2, 1],
        answer: Trial::AtomPair(3, 21),
        rust: Some(Trial::AtomPair(1, 34)),
    },
    Input {
        name: "D2, a pair cheaper than the first, least width",
        bank_width: 2,
        points: &[0, 1],
        bank_target: 0,
        index_width: 2,
        width: 2,
        target: &[2, 1],
        answer: Trial::AtomPair(3, 3),
        rust: Some(Trial::AtomPair(1, 4)),
    },
    Input {
        name: "D2, a pair cheaper than the first, fewest atoms",
        bank_width: 4,
        points: &[0],
        bank_target: 0,
        index_width: 4,
        width: 4,
        target: &[7],
        answer: Trial::AtomPair(5, 1),
        rust: Some(Trial::AtomPair(3, 6)),
    },
];

pub fn print() {
    for input in MISSED.iter().chain(&LATER_PAIR) {
        let (setting, target) = ask(input);
        assert_eq!(setting.two_atoms(target), None);
        tell_rust(&setting, input.rust, setting.product_loop(target));
    }
    for input in &CHEAPER_PAIR {
        let (setting, target) = ask(input);
        tell_rust(&setting, input.rust, setting.two_atoms(target));
    }
    LENT.iter().for_each(print_lent);
    print_lent_candidates();
}

/// Prints what the Rust has, which must be as stated.
fn tell_rust(setting: &Setting, stated: Option<Trial>, rust: Option<Trial>) {
    assert_eq!(rust, stated);
    match rust {
        Some(trial) => print_trial(setting, "Rust", trial),
        None => println!("  Rust: none"),
    }
}

/// Prints the input and the specification's answer.
fn ask(input: &Input) -> (Setting, Row) {
    let atoms = input.bank().bank();
    let setting = Setting::with_index(atoms, PAIRS_MAX, input.index_width, input.width);
    let target = input.row();
    println!(
        "{}: bank of width {} at the points {:?}, bank target all {}: {} atoms; index of width {}: {} pairs; search at width {}, \
         target {:?}",
        input.name,
        input.bank_width,
        input.points,
        input.bank_target,
        setting.rows.len(),
        input.index_width,
        setting.index.pairs.len(),
        input.width,
        input.target,
    );
    assert_eq!(setting.try_everything(&target), Some(input.answer));
    print_trial(&setting, "keeping the least", input.answer);
    (setting, target)
}

/// Prints a trial, its formula and its cost.
fn print_trial(setting: &Setting, whose: &str, trial: Trial) {
    let written = setting.written();
    let [formula, cost] = [
        text(&written.written_out(trial)),
        format!("{:?}", written.cost(trial)),
    ];
    println!("  {whose}: {trial:?}, {formula}, cost {cost}");
}

/// A formula as the listing program writes it.
fn text(formula: &Formula) -> String {
    let token = |(op, operand): (u8, u64)| match op {
        CONSTANT => format!("c{operand}"),
        VARIABLE => format!("v{operand}"),
        _ => ["+", "*", "&", "|", "^", "!", "-"][usize::from(op) - 2].to_string(),
    };
    let tokens: Vec<String> = formula.tokens().map(token).collect();
    format!("`{}`", tokens.join(" "))
}

/// Atoms and pairs that no build made, their rows of one word each; then the specification's answer and the Rust's.
pub struct Lent {
    name: &'static str,
    pub width: u32,
    /// Tokens and word.
    atoms: &'static [(&'static [(u8, u64)], u64)],
    /// Gate, b and c, and the word.
    pairs: &'static [([usize; 3], u64)],
    target: u64,
    pub answer: Trial,
    rust: Option<Trial>,
}

impl Lent {
    pub fn setting(&self) -> Setting {
        let atom = |&(tokens, word): &(&[(u8, u64)], u64)| {
            let mut formula = Formula::default();
            tokens
                .iter()
                .for_each(|&(op, operand)| formula.push(op, operand));
            let cost = cost(&formula);
            let row = [word; 16];
            AtomView { formula, cost, row }
        };
        let words: Vec<u64> = self.pairs.iter().map(|pair| pair.1).collect();
        let index = IndexView {
            pairs: self.pairs.iter().map(|pair| pair.0).collect(),
            rows: words.iter().map(|&word| [word; 16]).collect(),
            order: product::order_list(&words),
            all: words.len(),
        };
        Setting::lent(self.atoms.iter().map(atom).collect(), index, self.width)
    }

    /// The row searched for.
    pub fn row(&self) -> Row {
        [self.target; 16]
    }
}

/// The least of each: D1, a pair cheaper than two atoms, a pair cheaper than the first.
pub const LENT: [Lent; 3] = [
    Lent {
        name: "D1, lent rows",
        width: 1,
        atoms: &[(&[(CONSTANT, 0)], 1)],
        pairs: &[([0, 0, 0], 2)],
        target: 0,
        answer: Trial::AtomPair(0, 0),
        rust: None,
    },
    Lent {
        name: "D2, lent rows, a pair cheaper than two atoms",
        width: 1,
        atoms: &[
            (&[(CONSTANT, 0)], 1),
            (&[(CONSTANT, 0), (NOT, 0), (NOT, 0), (NOT, 0)], 0),
        ],
        pairs: &[([0, 0, 0], 0)],
        target: 0,
        answer: Trial::AtomPair(0, 0),
        rust: Some(Trial::Atoms(0, 1)),
    },
    Lent {
        name: "D2, lent rows, a pair cheaper than the first",
        width: 1,
        atoms: &[(&[(VARIABLE, 0)], 1)],
        pairs: &[([4, 0, 0], 0), ([0, 0, 0], 0)],
        target: 0,
        answer: Trial::AtomPair(0, 1),
        rust: Some(Trial::AtomPair(0, 0)),
    },
];

fn print_lent(lent: &Lent) {
    let setting = lent.setting();
    let target = lent.row();
    println!(
        "{}: width {}, atoms all {:?}, pairs all {:?}, target all {}",
        lent.name,
        lent.width,
        lent.atoms.iter().map(|atom| atom.1).collect::<Vec<_>>(),
        lent.pairs,
        lent.target
    );
    assert_eq!(setting.try_everything(&target), Some(lent.answer));
    print_trial(&setting, "keeping the least", lent.answer);
    let two_atoms = setting.two_atoms(target);
    let rust = two_atoms.or_else(|| setting.product_loop(target));
    tell_rust(&setting, lent.rust, rust);
}

/// The candidates for D1's lent rows: slot 0, and none of the Rust's.
fn print_lent_candidates() {
    let setting = LENT[0].setting();
    let (atom, pair) = (setting.rows[0][0], setting.index.rows[0][0]);
    let (target, width) = (LENT[0].target, LENT[0].width);
    let listed = product::candidates(&[pair], atom, target, width);
    assert_eq!(listed, Some(vec![0]));
    let rust = access::candidates(&[pair], atom, target, width);
    assert_eq!(rust, (true, vec![]));
    println!("  candidates for p = {atom}, t = {target}: slot 0; Rust's: none");
}

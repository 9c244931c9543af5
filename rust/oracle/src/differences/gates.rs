//! D3: the Rust's And, Or and Xor, and its inverse of Xor, leave bits from 2^w up in place, and with them its index and what is looked
//! up. Rows of one word each at width 1; each input is the first of its space that shows the difference: fewest rows first, then by
//! their largest word, then by their sum.

use crate::access::{self, Completion, Part, Row};
use crate::spec::gates::{are_reduced, gate_row, gives, residual_row};
use crate::spec::index as spec;
use crate::spec::residual::try_everything;

pub const WIDTH: u32 = 1;
/// The words of the spaces are below this one.
const WORDS: u64 = 4;
/// The most rows of a bank and an index.
const ROWS: usize = 3;
const GATES: [&str; 5] = ["And", "Or", "Xor", "Add", "Mul"];

/// Two words under a gate; then what the specification gives, and the Rust.
pub struct Gated {
    pub gate: usize,
    pub words: [u64; 2],
    pub given: u64,
    pub rust: u64,
}

pub const APPLIED: [Gated; 3] = [
    Gated {
        gate: 0,
        words: [2, 2],
        given: 0,
        rust: 2,
    },
    Gated {
        gate: 1,
        words: [0, 2],
        given: 0,
        rust: 2,
    },
    Gated {
        gate: 2,
        words: [0, 2],
        given: 0,
        rust: 2,
    },
];

/// The target, and the word that is completed.
pub const COMPLETED: Gated = Gated {
    gate: 2,
    words: [0, 2],
    given: 0,
    rust: 2,
};

/// The atoms of an index; then the pairs and their words that the specification has, and those of the Rust.
pub struct Indexed {
    pub atoms: &'static [u64],
    pub pairs: &'static [[usize; 3]],
    pub words: &'static [u64],
    pub rust_pairs: &'static [[usize; 3]],
    pub rust_words: &'static [u64],
}

pub const INDEX: Indexed = Indexed {
    atoms: &[1, 2],
    pairs: &[[0, 0, 1]],
    words: &[0],
    rust_pairs: &[[0, 0, 1], [1, 0, 1]],
    rust_words: &[0, 3],
};

/// Atoms, pairs and the target of a residual search; then the specification's answer, and the Rust's.
pub struct Searched {
    pub atoms: &'static [u64],
    pub pairs: &'static [u64],
    pub target: u64,
    pub answer: Option<Completion>,
    pub rust: Option<Completion>,
}

pub const SEARCH: Searched = Searched {
    atoms: &[2],
    pairs: &[],
    target: 0,
    answer: None,
    rust: Some(Completion {
        gate: 2,
        atom: 0,
        other: Part::Atom(0),
    }),
};

/// The first search of the space that finds something.
pub const FOUND: Searched = Searched {
    atoms: &[2, 0],
    pairs: &[],
    target: 0,
    answer: Some(Completion {
        gate: 2,
        atom: 0,
        other: Part::Atom(1),
    }),
    rust: SEARCH.rust,
};

pub fn print() {
    for case in APPLIED {
        print_gate(&case);
    }
    print_residual(&COMPLETED);
    print_index(&INDEX);
    print_search(&SEARCH, |_| true);
    print_search(&FOUND, |answer| answer.is_some());
    print_space();
}

/// Rows that are one word sixteen times.
pub fn rows(words: &[u64]) -> Vec<Row> {
    words.iter().map(|&word| [word; 16]).collect()
}

fn print_gate(case: &Gated) {
    let both = |words: &[u64]| {
        let (a, b) = ([words[0]; 16], [words[1]; 16]);
        let rust = access::gate_apply(a, b, case.gate, WIDTH);
        (gate_row(&a, &b, case.gate, WIDTH)[0], rust[0])
    };
    let least = lists(2).into_iter().find(|words| differ(both(words)));
    assert_eq!(least.as_deref(), Some(&case.words[..]));
    assert_eq!(both(&case.words), (case.given, case.rust));
    let [a, b] = case.words.map(|word| [word; 16]);
    for target in [case.given, case.rust] {
        let matches = gives(&a, &b, &[target; 16], case.gate, WIDTH);
        assert_eq!(matches, target == case.given);
        let rust = access::gate_matches(a, b, [target; 16], case.gate, WIDTH);
        assert_eq!(rust, target == case.rust);
    }
    println!(
        "D3, {}: width {WIDTH}, words {:?}: {}; the Rust's: {}; and so do they match",
        GATES[case.gate], case.words, case.given, case.rust
    );
}

fn print_residual(case: &Gated) {
    let both = |words: &[u64]| {
        let (target, a) = ([words[0]; 16], [words[1]; 16]);
        let rust = access::gate_residual(target, a, case.gate, WIDTH);
        (residual_row(&target, &a, case.gate, WIDTH)[0], rust[0])
    };
    let least = lists(2).into_iter().find(|words| differ(both(words)));
    assert_eq!(least.as_deref(), Some(&case.words[..]));
    assert_eq!(both(&case.words), (case.given, case.rust));
    println!(
        "D3, inverse of {}: width {WIDTH}, target and word {:?}: {}; the Rust's: {}",
        GATES[case.gate], case.words, case.given, case.rust
    );
}

/// The pairs and their first words, by the specification and by the Rust.
fn indexes(atoms: &[u64]) -> [(Vec<[usize; 3]>, Vec<u64>); 2] {
    let atoms = rows(atoms);
    let limit = spec::PAIRS_MAX as usize;
    let views = [
        spec::view(&atoms, WIDTH, limit),
        access::index(&atoms, WIDTH, limit),
    ];
    views.map(|view| (view.pairs, view.rows.iter().map(|row| row[0]).collect()))
}

fn print_index(case: &Indexed) {
    let differs = |atoms: &Vec<u64>| indexes(atoms)[0] != indexes(atoms)[1];
    let least = (0..=ROWS).flat_map(lists).find(differs);
    assert_eq!(least.as_deref(), Some(case.atoms));
    let [ours, rust] = indexes(case.atoms);
    assert_eq!(ours, (case.pairs.to_vec(), case.words.to_vec()));
    assert_eq!(rust, (case.rust_pairs.to_vec(), case.rust_words.to_vec()));
    println!(
        "D3, index: width {WIDTH}, atoms all {:?}: pairs {:?}, rows all {:?}; the Rust's: {:?}, {:?}",
        case.atoms, ours.0, ours.1, rust.0, rust.1
    );
}

/// The specification's answer and the Rust's.
fn searches(atoms: &[u64], pairs: &[u64], target: u64) -> [Option<Completion>; 2] {
    let (atoms, pairs, target) = (rows(atoms), rows(pairs), [target; 16]);
    let rust = access::completions(&[target], &atoms, &pairs, WIDTH)[0];
    [try_everything(&target, &atoms, &pairs, WIDTH), rust]
}

/// The first of the searches with such an answer: fewest rows, then most atoms, then the least words.
fn print_search(case: &Searched, wanted: impl Fn(Option<Completion>) -> bool) {
    let mut all = (0..=ROWS).flat_map(|count| {
        let split = move |atoms: usize| {
            let targets = |words: Vec<u64>| [0, 1].map(|target| (words.clone(), target));
            let inputs = lists(count).into_iter().flat_map(targets);
            inputs.map(move |(words, target)| (words, atoms, target))
        };
        (0..=count).rev().flat_map(split)
    });
    let least = all.find(|(words, atoms, target)| {
        let [ours, rust] = searches(&words[..*atoms], &words[*atoms..], *target);
        ours != rust && wanted(ours)
    });
    let words = [case.atoms, case.pairs].concat();
    assert_eq!(least, Some((words, case.atoms.len(), case.target)));
    let answers = searches(case.atoms, case.pairs, case.target);
    assert_eq!(answers, [case.answer, case.rust]);
    println!(
        "D3, residual search: width {WIDTH}, atoms all {:?}, pairs all {:?}, target all {}: {:?}; the Rust's: {:?}",
        case.atoms, case.pairs, case.target, case.answer, case.rust
    );
}

/// All words below 2^(w + 2) at widths 1 to 4: Add, Mul and their inverses never differ, the others only on words from 2^w up.
fn print_space() {
    for (gate, name) in GATES.into_iter().enumerate() {
        let words: Vec<(u32, Row, Row)> = (1..=4).flat_map(words_about).collect();
        let applied = |&(width, a, b): &(u32, Row, Row)| {
            access::gate_apply(a, b, gate, width) != gate_row(&a, &b, gate, width)
        };
        let completed = |&(width, a, b): &(u32, Row, Row)| {
            access::gate_residual(a, b, gate, width) != residual_row(&a, &b, gate, width)
        };
        let [applied, completed] = [
            words.iter().filter(|two| applied(two)).collect::<Vec<_>>(),
            words.iter().filter(|two| completed(two)).collect(),
        ];
        let is_raw = |&&(width, a, b): &&(u32, Row, Row)| !are_reduced(&[a, b], width);
        assert!(applied.iter().chain(&completed).all(is_raw));
        assert_eq!(!applied.is_empty(), gate < 3);
        assert_eq!(!completed.is_empty(), gate == 2);
        println!(
            "D3 in all two words below 2^(w + 2), widths 1 to 4, {name}: of {} {} differ, of their residuals {}",
            words.len(),
            applied.len(),
            completed.len()
        );
    }
}

/// A width with every two words below 2^(width + 2).
fn words_about(width: u32) -> impl Iterator<Item = (u32, Row, Row)> {
    let words = 0..1u64 << (width + 2);
    let firsts = words.clone();
    firsts.flat_map(move |a| words.clone().map(move |b| (width, [a; 16], [b; 16])))
}

fn differ((ours, rust): (u64, u64)) -> bool {
    ours != rust
}

/// Every list of so many words, by their largest, then by their sum.
fn lists(count: usize) -> Vec<Vec<u64>> {
    let word = |code: u64, place: usize| code / WORDS.pow(place as u32) % WORDS;
    let list = |code: u64| (0..count).rev().map(|place| word(code, place)).collect();
    let mut lists: Vec<Vec<u64>> = (0..WORDS.pow(count as u32)).map(list).collect();
    lists.sort_by_key(|list| (list.iter().copied().max(), list.iter().sum::<u64>()));
    lists
}

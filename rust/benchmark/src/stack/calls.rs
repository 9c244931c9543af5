//! Each exported call with the inputs that need most.

use std::fmt::Write;
use std::hint::black_box;

use simjaldek::lent::{self, Records, Tokens};
use simjaldek::{
    bitmask, AtomSlot, Bank, Completion, Cost, Formula, FormulaBuf, Gate, Index, Log, LogState,
    Points, Product, RankedRule, Row, Window, FORMULA_TOKENS_MAX, LOG_RULES_MAX, PAIRS_MAX,
};

use crate::setting::{BankBuffers, IndexBuffers};

/// A call that is ready: what it takes is made.
pub type Work = Box<dyn FnOnce() + Send>;

/// A call to measure.
pub struct Call {
    /// The export's name, after `simjaldek_`.
    pub name: &'static str,
    /// Its inputs, in words.
    pub with: &'static str,
    /// Makes its inputs.
    pub work: fn() -> Work,
}

const NUM_VARS: u32 = 6;
const WIDTH: u32 = 64;
/// The listing program's largest limit.
const LISTED_MAX: usize = 500;
/// Records of a rule, and of a closing log.
const RULE_RECORDS: usize = 95;
const LOG_RECORDS: usize = 527;

/// All exports, in the library's order; `empty`, which makes no call, comes first.
pub const CALLS: [Call; 34] = [
    call("empty", "", || Box::new(|| ())),
    call("product_search", FULL_INDEX, product_search),
    call("residual_search", FULL_INDEX, residual_search),
    call("find_row", BANK, find_row),
    call("build_index", FULL_INDEX, build_index),
    call("collect_mul_probe0_candidates", FULL_INDEX, candidates),
    call("build_bank", BANK, build_bank),
    call("token_at", FORMULAS, token_at),
    call("is_formula", FORMULAS, is_formula),
    call("eval", FORMULAS, eval),
    call("compute_cost", FORMULAS, compute_cost),
    call(
        "draw_formula",
        "six variables, width 64, limit 64",
        draw_formula,
    ),
    call(
        "run_rule",
        "64 tokens, depth 64 and 33 each way, 95 records",
        run_rule,
    ),
    call("open_log", "any log", || {
        Box::new(|| assert!(lent::open_log(LogState::default()).is_open()))
    }),
    call(
        "run_log",
        "eight rules of 64 tokens, depth 64 and 33 each way, 527 records",
        run_log,
    ),
    call("make_probe_points", "six variables", || {
        Box::new(|| assert!(lent::probe_points(NUM_VARS, WIDTH).is_ok()))
    }),
    call("probe", FORMULAS, probe),
    call("fingerprint", "a row", || {
        Box::new(|| assert!(lent::fingerprint(&row(1)).is_ok()))
    }),
    call("bitmask", WORDS, || word(|a, _| bitmask(a as u32))),
    call("reduce", WORDS, || word(|a, _| lent::reduce(a, 63))),
    call("wrapping_mul", WORDS, || word(lent::wrapping_mul)),
    call("mod_add", WORDS, || word(|a, b| lent::mod_add(a, b, 63))),
    call("mod_sub", WORDS, || word(|a, b| lent::mod_sub(a, b, 63))),
    call("mod_mul", WORDS, || word(|a, b| lent::mod_mul(a, b, 63))),
    call("mod_not", WORDS, || word(|a, _| lent::mod_not(a, 63))),
    call("mod_neg", WORDS, || word(|a, _| lent::mod_neg(a, 63))),
    call("mod_inverse_odd", WORDS, || {
        word(|a, _| lent::mod_inverse_odd(a | 1, WIDTH))
    }),
    call("splitmix64", WORDS, || word(|a, _| lent::splitmix64(a).1)),
    call("is_better", "two costs", is_better),
    call("gate_apply", ROWS, || {
        gates(|a, b, gate| lent::gate_apply(a, b, gate, WIDTH).is_ok())
    }),
    call("gate_residual", ROWS, || {
        gates(|a, b, gate| lent::gate_residual(a, b, gate, WIDTH).is_ok())
    }),
    call("gate_matches", ROWS, || {
        gates(|a, b, gate| lent::gate_matches(a, b, a, gate, WIDTH).is_ok())
    }),
    call("atom_row", BANK, atom_row),
    call(
        "write_listing",
        "six variables, width 64, 500 pairs",
        write_listing,
    ),
];

const FULL_INDEX: &str = "six variables, 262,144 pairs";
const BANK: &str = "six variables, eight seeds";
const FORMULAS: &str = "64 tokens, depth 64 and 33 each way";
const ROWS: &str = "rows, each gate";
const WORDS: &str = "words";

const fn call(name: &'static str, with: &'static str, work: fn() -> Work) -> Call {
    Call { name, with, work }
}

// ---- numbers and rows

fn word(ask: fn(u64, u64) -> u64) -> Work {
    Box::new(move || {
        black_box(ask(black_box(u64::MAX), black_box(3)));
    })
}

fn gates(ask: fn(&Row, &Row, u32) -> bool) -> Work {
    let (a, b) = (row(1), row(2));
    Box::new(move || assert!((0..5).all(|gate| ask(&a, &b, gate))))
}

/// Sixteen words of splitmix64 from this state.
fn row(mut state: u64) -> Row {
    std::array::from_fn(|_| {
        let (next, word) = lent::splitmix64(state);
        state = next;
        word
    })
}

fn is_better() -> Work {
    let cost = |depth| Cost {
        size: 1,
        products: 1,
        depth,
    };
    Box::new(move || assert!(cost(1).is_better(cost(2))))
}

// ---- formulas

/// The deepest formulas of 64 tokens: under Nots, and with products whose left or right operand is the longer.
fn formulas() -> [FormulaBuf; 3] {
    let leaf = "v0";
    let texts = [
        format!("{leaf}{}", " !".repeat(63)),
        format!("{leaf}{} !", " v1 *".repeat(31)),
        format!("{}{leaf}{} !", "v1 ".repeat(31), " *".repeat(31)),
    ];
    texts.map(|text| text.parse().expect("tokens"))
}

fn with_formulas(ask: fn(Tokens<'_>)) -> Work {
    let formulas = formulas();
    Box::new(move || {
        let lent = formulas.iter().map(FormulaBuf::as_formula);
        lent.map(Formula::lend).for_each(ask);
    })
}

fn token_at() -> Work {
    with_formulas(|tokens| {
        black_box(lent::token_at(tokens.ops, tokens.operands, 63));
    })
}

fn is_formula() -> Work {
    with_formulas(|tokens| assert!(lent::is_formula(NUM_VARS, tokens)))
}

fn eval() -> Work {
    with_formulas(|tokens| assert!(lent::evaluate(NUM_VARS, WIDTH, tokens, &[7; 6]).is_ok()))
}

fn compute_cost() -> Work {
    with_formulas(|tokens| assert!(lent::compute_cost(NUM_VARS, tokens).is_ok()))
}

/// A hundred formulas of up to 64 tokens.
fn draw_formula() -> Work {
    let mut state = 1;
    let (mut ops, mut operands) = ([0; FORMULA_TOKENS_MAX], [0; FORMULA_TOKENS_MAX]);
    Box::new(move || {
        for _ in 0..100 {
            let limit = FORMULA_TOKENS_MAX;
            let drawn = lent::draw_formula(state, NUM_VARS, WIDTH, limit, &mut ops, &mut operands);
            state = drawn.expect("in range").state;
        }
    })
}

/// Whole sixteens of records, and fifteen more.
fn run_rule() -> Work {
    with_formulas(|tokens| {
        let window = Window {
            least: 64,
            records: 64,
        };
        let records = Records {
            count: RULE_RECORDS,
            words: &[7; NUM_VARS as usize * RULE_RECORDS],
        };
        let mut answers = [0; RULE_RECORDS];
        let ran = lent::run_rule(NUM_VARS, WIDTH, tokens, window, 0, records, &mut answers);
        assert!(ran.is_ok());
    })
}

/// Whole sixteens and whole 256s of records, and fifteen more.
fn run_log() -> Work {
    let formulas = formulas();
    let window = Window {
        least: 64,
        records: 64,
    };
    let rules = formulas.iter().cycle().zip(1..=LOG_RULES_MAX as u32);
    let rules = rules.map(|(formula, rank)| RankedRule {
        rank,
        formula: formula.as_formula(),
        window,
    });
    let rules: Vec<RankedRule<'_>> = rules.collect();
    let mut log = Log::new(NUM_VARS, WIDTH, &rules).expect("in range");
    let records = vec![7; NUM_VARS as usize * LOG_RECORDS];
    Box::new(move || {
        log.open();
        assert!(log.records(&records).is_ok());
    })
}

fn probe() -> Work {
    with_formulas(|tokens| assert!(lent::probe_row(NUM_VARS, WIDTH, &[7; 96], tokens).is_ok()))
}

// ---- banks and indexes

fn points() -> Points {
    Points::standard(NUM_VARS, WIDTH).expect("in range")
}

/// A target of eight seeds.
fn target() -> Row {
    row(0)
}

/// The bank; the child ends soon, so that it is never dropped.
fn bank() -> &'static Bank {
    let bank = Bank::build(&points(), &target()).expect("words below 2^64");
    Box::leak(Box::new(bank))
}

fn index() -> Index<'static> {
    let index = Index::build(bank(), PAIRS_MAX).expect("a limit in range");
    assert!(index.is_cut() && index.len() == PAIRS_MAX);
    index
}

fn find_row() -> Work {
    let bank = bank();
    let last = *bank.atoms().last().expect("a bank has atoms").row();
    Box::new(move || {
        for row in [last, row(5)] {
            assert!(lent::find_row(WIDTH, bank.lend(), &row).is_ok());
        }
    })
}

fn atom_row() -> Work {
    let bank = bank();
    let last = AtomSlot(bank.len() as u32 - 1);
    Box::new(move || assert!(lent::atom_row(bank.lend(), last).is_ok()))
}

fn build_bank() -> Work {
    let (points, target) = (points(), target());
    let mut buffers = BankBuffers::new();
    Box::new(move || {
        let words = points.words().as_flattened();
        let built = lent::build_bank(NUM_VARS, WIDTH, words, &target, buffers.lend());
        assert!(built.is_ok());
    })
}

fn build_index() -> Work {
    let bank = bank();
    let mut buffers = IndexBuffers::new();
    Box::new(move || {
        let built = lent::build_index(WIDTH, bank.lend(), PAIRS_MAX, buffers.lend());
        assert!(built.is_ok());
    })
}

fn candidates() -> Work {
    let index = index();
    let mut list = vec![0; PAIRS_MAX];
    let first = index.pairs().last().expect("an index has pairs").row()[0];
    Box::new(move || {
        for (p, t) in [(1, first), (3, first), (256, 0), (0, 0), (512, 512)] {
            assert!(lent::candidates(WIDTH, index.lend(), p, t, &mut list).is_ok());
        }
    })
}

/// Searches that find nothing, with and without the filter, one each for two atoms and for an atom and a pair, and one that very many fit.
fn product_search() -> Work {
    let index = index();
    let mut zero_first = target();
    zero_first[0] = 0;
    let atom = *index.bank().atoms().last().expect("it has atoms").row();
    let pair = *index.pairs().next().expect("it has pairs").row();
    let targets = [target(), zero_first, atom, pair, [0; 16]];
    Box::new(move || {
        let (atoms, pairs) = (index.bank().lend_written(), index.lend_written());
        let search = |target: &Row| lent::product_search(WIDTH, atoms, pairs, target);
        let found = targets.each_ref().map(search);
        assert!(matches!(
            found,
            [
                Ok(Product::Nothing),
                Ok(Product::Nothing),
                Ok(Product::Atoms(..)),
                Ok(Product::AtomPair(..)),
                Ok(Product::Atoms(..)),
            ]
        ));
    })
}

/// Searches that find nothing, two atoms, and an atom and a pair under either gate.
fn residual_search() -> Work {
    let index = index();
    let atom = *index.bank().atoms().last().expect("it has atoms").row();
    let pair = *index.pairs().last().expect("it has pairs").row();
    let sum = lent::gate_apply(&atom, &pair, Gate::Add.number(), WIDTH).expect("two rows");
    let targets = [target(), atom, pair, sum];
    Box::new(move || {
        let (atoms, pairs) = (index.bank().lend(), index.lend().unordered());
        let search = |target: &Row| lent::residual_search(WIDTH, atoms, pairs, target);
        let found = targets.each_ref().map(search);
        assert!(matches!(
            found,
            [
                Ok(Completion::Nothing),
                Ok(Completion::Atoms(Gate::Xor, ..)),
                Ok(Completion::AtomPair(Gate::Xor, ..)),
                Ok(Completion::AtomPair(Gate::Add, ..)),
            ]
        ));
    })
}

fn write_listing() -> Work {
    let mut text = format!("{NUM_VARS} {WIDTH} {LISTED_MAX}");
    let points = points();
    for word in points.words().as_flattened().iter().chain(&target()) {
        write!(text, " {word}").expect("a string takes all");
    }
    let mut out = vec![0; lent::TEXT_MAX];
    Box::new(move || {
        let length = lent::write_listing(text.as_bytes(), &mut out).expect("room enough");
        assert!(out[..length].starts_with(b"atoms 36"));
    })
}

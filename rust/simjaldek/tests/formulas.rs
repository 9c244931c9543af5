//! What is told of texts and tokens that are no formula, and of constants that the width cuts off.

use simjaldek::{
    compute_cost, evaluate, is_formula, splitmix64, Bank, Fault, Formula, FormulaBuf, Index,
    Points, ReadError, Refusal, Token,
};

fn parsed(text: &str) -> FormulaBuf {
    text.parse().expect("tokens")
}

/// What is said of a text over so many variables at width 16.
fn said(num_vars: u32, text: &str) -> String {
    let points = Points::standard(num_vars, 16).unwrap();
    points.read(text).expect_err("no formula").to_string()
}

#[test]
fn faults_told() {
    let operands_first = "postfix has operands first";
    let cases = [
        (2, "v0 v6 +", "v6 at token 2: variables are v0 and v1"),
        (1, "v1", "v1 at token 1: the only variable is v0"),
        (6, "c0 v6 +", "v6 at token 2: variables are v0 to v5"),
        (2, "", "no token: a formula has 1 to 64"),
        (2, "v0 v1", "2 values are left where one is wanted: a gate is missing (! and - take one value, the others two; v0 v1 - + is v0 - v1)"),
        (2, &format!("v0{}", " !".repeat(64)), "65 tokens: a formula has 1 to 64"),
        (2, "v0 + v1", &format!("+ at token 2: takes two values and one is there; {operands_first}")),
        (2, "* v0 v1", &format!("* at token 1: takes two values and none is there; {operands_first}")),
        (2, "! v0", &format!("! at token 1: takes one value and none is there; {operands_first}")),
    ];
    for (num_vars, text, told) in cases {
        assert_eq!(said(num_vars, text), format!("refused 6: {told}"));
    }
}

#[test]
fn faults_of_opcodes() {
    let fault = |opcode, operand| {
        let (ops, operands) = ([1, opcode], [0, operand]);
        let formula = Formula::new(&ops, &operands).unwrap();
        formula.fault(1).expect("no formula")
    };
    let unknown = fault(9, 3);
    let (place, opcode, operand) = (2, 9, 3);
    let expected = Fault::NoSuchToken {
        place,
        opcode,
        operand,
    };
    assert_eq!(unknown, expected);
    let told = "opcode 9 at token 2: opcodes are 0 to 8";
    assert_eq!(unknown.to_string(), told);
    let told = "opcode 7 with operand 3 at token 2: opcodes 2 to 8 have operand 0";
    assert_eq!(fault(7, 3).to_string(), told);
}

#[test]
fn refusals_of_formulas() {
    let formula = parsed("v0 v6 +");
    let fault = Fault::NoSuchVariable {
        place: 2,
        number: 6,
        num_vars: 2,
    };
    let points = Points::standard(2, 16).unwrap();
    let bank = Bank::build(&points, &[0; 16]).unwrap();
    let index = Index::build(&bank, 10).unwrap();
    let errors = [
        evaluate(2, 16, formula.as_formula(), &[0; 2]).unwrap_err(),
        compute_cost(2, formula.as_formula()).unwrap_err(),
        points.row(formula.as_formula()).unwrap_err(),
        Bank::build_for(&points, formula.as_formula()).unwrap_err(),
        index.product_for(formula.as_formula()).unwrap_err(),
        index.residual_for(formula.as_formula()).unwrap_err(),
    ];
    for error in errors {
        assert_eq!(error.refusal(), Refusal::Formula);
        assert_eq!(error.fault(), Some(fault));
        assert_eq!(Refusal::from(error), Refusal::Formula);
    }
    assert_eq!(points.read("v0 v6 +"), Err(ReadError::Formula(errors[0])));
    let width = evaluate(2, 65, formula.as_formula(), &[0; 2]).unwrap_err();
    assert_eq!((width.refusal(), width.fault()), (Refusal::Width, None));
    assert_eq!(width.to_string(), Refusal::Width.to_string());
}

/// A number below `bound`.
fn below(state: &mut u64, bound: u64) -> u64 {
    let (next, word) = splitmix64(*state);
    *state = next;
    word % bound
}

/// Any opcode and operand, mostly a token's.
fn random_token(state: &mut u64) -> (u8, u64) {
    let opcode = below(state, 40) as u8 % 10;
    let operand = match (opcode, below(state, 40)) {
        (_, 0) => below(state, 3),
        (1, _) => below(state, 7),
        (0, wide) => wide << 32,
        _ => 0,
    };
    (opcode, operand)
}

/// Tokens of which each finds its values, but for a fault here and there.
fn random_tokens(state: &mut u64) -> (Vec<u8>, Vec<u64>) {
    let longest = [2, 4, 8, 64, 70][below(state, 5) as usize];
    let count = below(state, longest + 1);
    let mut values = 0;
    let mut tokens = Vec::new();
    for left in (0..count).rev() {
        let (opcode, operand) = match below(state, 100) {
            0 => random_token(state),
            _ if values < 2 || values <= left && below(state, 3) == 0 => {
                (below(state, 2) as u8, below(state, 2))
            }
            unary if unary < 20 => (7 + below(state, 2) as u8, 0),
            _ => (2 + below(state, 5) as u8, 0),
        };
        values = match opcode {
            0 | 1 => values + 1,
            2..=6 => std::cmp::max(values, 1) - 1,
            _ => values,
        };
        tokens.push((opcode, operand));
    }
    tokens.into_iter().unzip()
}

/// A fault exists exactly if the library says that the tokens are no formula.
#[test]
fn faults_of_random_tokens() {
    let mut state = 1;
    let mut formulas = 0;
    let mut kinds = [0; 6];
    for _ in 0..20_000 {
        let (ops, operands) = if below(&mut state, 4) == 0 {
            let count = below(&mut state, 5);
            (0..count).map(|_| random_token(&mut state)).unzip()
        } else {
            random_tokens(&mut state)
        };
        let formula = Formula::new(&ops, &operands).unwrap();
        let num_vars = below(&mut state, 8) as u32;
        let fault = formula.fault(num_vars);
        assert_eq!(
            fault.is_none(),
            is_formula(num_vars, formula),
            "{num_vars} {ops:?} {operands:?} {fault:?}"
        );
        match fault {
            None => formulas += 1,
            Some(fault) => kinds[kind(fault)] += 1,
        }
    }
    assert!(formulas > 3000, "{formulas} formulas");
    assert!(kinds.iter().all(|&count| count > 100), "{kinds:?}");
}

fn kind(fault: Fault) -> usize {
    match fault {
        Fault::NoToken => 0,
        Fault::TooLong { .. } => 1,
        Fault::NoSuchToken { .. } => 2,
        Fault::NoSuchVariable { .. } => 3,
        Fault::OperandMissing { .. } => 4,
        Fault::ValuesLeft { .. } => 5,
    }
}

#[test]
fn constants_cut_off() {
    let formula = parsed("v0 c65535 + c70000 c65536 * &");
    let cut = |width| -> Vec<String> {
        let cut = formula.as_formula().cut_constants(width);
        cut.map(|constant| constant.to_string()).collect()
    };
    assert_eq!(
        cut(16),
        [
            "c70000 at token 4 counts as c4464 at width 16",
            "c65536 at token 5 counts as c0 at width 16"
        ]
    );
    assert_eq!(cut(17), Vec::<String>::new());
    assert_eq!(cut(15).len(), 3);
    let largest = parsed(&format!("c{}", u64::MAX));
    assert_eq!(largest.as_formula().cut_constants(64).count(), 0);
    let points = Points::standard(1, 16).unwrap();
    let read = points.read("v0 c70000 +").unwrap();
    assert_eq!(read.formula, parsed("v0 c70000 +"));
    let [constant] = read.cut[..] else {
        panic!("one constant is cut off");
    };
    let told = (constant.place, constant.word, constant.counts_as);
    assert_eq!((told, constant.width), ((2, 70000, 4464), 16));
    let row = points.row(read.formula.as_formula());
    assert_eq!(row, points.row(parsed("v0 c4464 +").as_formula()));
}

#[test]
fn words_that_are_no_tokens() {
    let postfix = "postfix is wanted, with blanks between the tokens: `v0 v1 +` for v0 + v1";
    let sign = "a constant has no sign: `c1 -` is -1";
    let tokens = "tokens are c and a decimal number, v and a variable's number, and + * & | ^ ! -: `v0 c3 *`";
    let cases = [
        ("(v0 + v1)", "(v0", 1, postfix),
        ("v0 v1+", "v1+", 2, postfix),
        ("v0+v1", "v0+v1", 1, postfix),
        ("v0 )", ")", 2, postfix),
        ("v0 c+3", "c+3", 2, sign),
        ("v0 c-1", "c-1", 2, sign),
        ("v0 -1", "-1", 2, postfix),
        ("x", "x", 1, tokens),
        ("v0 3 +", "3", 2, tokens),
        ("v0 c", "c", 2, tokens),
        ("v0 v", "v", 2, tokens),
        ("v0 c0x10 +", "c0x10", 2, tokens),
        (
            "v0 c18446744073709551616 +",
            "c18446744073709551616",
            2,
            "a constant is below 2^64",
        ),
        (
            "v18446744073709551616",
            "v18446744073709551616",
            1,
            "variables are v0 to v5 at most",
        ),
    ];
    for (text, word, place, wanted) in cases {
        let error = text.parse::<FormulaBuf>().unwrap_err();
        assert_eq!((error.word(), error.place()), (word, place));
        assert_eq!(
            error.to_string(),
            format!("{word} at token {place}: {wanted}")
        );
        assert_eq!(said(2, text), error.to_string());
        let error = word.parse::<Token>().unwrap_err();
        assert_eq!(error.to_string(), format!("{word}: {wanted}"));
    }
    assert_eq!(parsed("c007 v00 +").to_string(), "c7 v0 +");
}

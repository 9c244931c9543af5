//! What examples/residual.rs prints.

#[allow(dead_code)]
#[path = "../examples/residual.rs"]
mod residual;

fn run(arguments: &[&str]) -> Result<String, String> {
    let arguments: Vec<String> = arguments.iter().map(|&text| text.to_owned()).collect();
    residual::run(&arguments).map_err(|error| error.to_string())
}

#[test]
fn a_sum() {
    let text = "\
formula v0 v0 * v0 v1 * + v0 v1 * + v1 v1 * + v0 v1 ^ +
cost 27 4 6 (size, products, depth)
bank 54 atoms, index 5293 pairs, whole
completion v0 v1 ^ v0 v1 + v0 v1 + * +
cost 13 1 4, better than the formula's
Both have the same values at the sixteen points. Elsewhere is unknown: compare them there before one takes the other's place.
";
    let formula = "v0 v0 * v0 v1 * + v0 v1 * + v1 v1 * + v0 v1 ^ +";
    assert_eq!(run(&["2", "32", formula]).as_deref(), Ok(text));
}

/// A constant that is no seed is found as a pair of two that are.
#[test]
fn a_sum_with_a_constant() {
    let text = run(&["2", "16", "v0 v1 & c70000 +"]).unwrap();
    assert!(
        text.contains("\nnote: c70000 at token 4 counts as c4464 at width 16\n"),
        "{text}"
    );
    assert!(
        text.contains("\ncompletion v0 v1 & c7024 c38260 & +\ncost 7 0 3, not better than "),
        "{text}"
    );
}

#[test]
fn a_completion_that_is_not_better() {
    let text = run(&["1", "8", "v0"]).unwrap();
    assert!(
        text.contains("\ncompletion c0 v0 ^\ncost 3 0 2, not better than the formula's (it is the first completion found, not the cheapest: a shorter one may exist)\n"),
        "{text}"
    );
}

#[test]
fn nothing_for_certain() {
    let text = run(&["2", "16", "v0 v1 & c7 * v0 v0 * +"]).unwrap();
    assert!(
        text.contains(" pairs, whole\nnothing, for certain: no a ^ b, a + b, "),
        "{text}"
    );
}

#[test]
fn nothing_and_a_cut_index() {
    let text = run(&["6", "64", "v0 v1 * v2 + v3 * v4 ^ v5 +"]).unwrap();
    assert!(
        text.contains("index 262144 pairs, cut\nnothing found, and not certain: "),
        "{text}"
    );
}

#[test]
fn refused() {
    let told = |arguments: &[&str]| run(arguments).unwrap_err();
    assert_eq!(told(&["2", "32"]), "three arguments are wanted, not 2");
    assert_eq!(told(&["2", "65", "v0"]), "refused 2: width not 1 to 64");
    assert_eq!(
        told(&["2", "32", "v2"]),
        "refused 6: v2 at token 1: variables are v0 and v1"
    );
    assert!(residual::USAGE.starts_with("usage: residual VARIABLES WIDTH FORMULA\n"));
}

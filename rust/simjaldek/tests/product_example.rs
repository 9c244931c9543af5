//! What examples/product.rs prints.

#[allow(dead_code)]
#[path = "../examples/product.rs"]
mod product;

fn run(arguments: &[&str]) -> Result<String, String> {
    let arguments: Vec<String> = arguments.iter().map(|&text| text.to_owned()).collect();
    product::run(&arguments).map_err(|error| error.to_string())
}

#[test]
fn a_product() {
    let text = "\
formula v0 v0 * v0 v1 * +
cost 11 2 3 (size, products, depth)
bank 54 atoms, index 5298 pairs, whole
product v0 v0 v1 + *
cost 7 1 3, better than the formula's
Both have the same values at the sixteen points. Elsewhere is unknown: compare them there before one takes the other's place.
";
    assert_eq!(run(&["2", "32", "v0 v0 * v0 v1 * +"]).as_deref(), Ok(text));
}

#[test]
fn a_product_that_is_not_better() {
    let text = run(&["1", "8", "v0"]).unwrap();
    assert!(
        text.contains("\nproduct c1 v0 *\ncost 3 0 2, not better than the formula's (it is the cheapest product of two atoms, or of an atom and a listed pair, with these values; a shorter formula may exist)\n"),
        "{text}"
    );
}

#[test]
fn nothing_for_certain() {
    let text = run(&["2", "16", "v0 v1 & c70000 +"]).unwrap();
    assert!(
        text.contains("\nnote: c70000 at token 4 counts as c4464 at width 16\n"),
        "{text}"
    );
    assert!(
        text.contains(" pairs, whole\nnothing, for certain: "),
        "{text}"
    );
}

#[test]
fn nothing_and_a_cut_index() {
    let text = run(&["6", "64", "v0 v1 * v2 + v3 * v4 ^ v5 +"]).unwrap();
    assert!(
        text.contains("index 262144 pairs, cut\nnothing found, and not certain: "),
        "{text}"
    );
}

#[test]
fn refused() {
    let told = |arguments: &[&str]| run(arguments).unwrap_err();
    assert_eq!(told(&[]), "three arguments are wanted, not 0");
    assert_eq!(told(&["2", "32"]), "three arguments are wanted, not 2");
    assert_eq!(
        told(&["2", "32", "v0", "v1", "+"]),
        "three arguments are wanted, not 5"
    );
    assert_eq!(told(&["x", "32", "v0"]), "VARIABLES is no number: x");
    assert_eq!(told(&["2", "", "v0"]), "WIDTH is no number: ");
    assert_eq!(
        told(&["7", "32", "v0"]),
        "refused 1: variable count not 1 to 6"
    );
    assert_eq!(told(&["2", "65", "v0"]), "refused 2: width not 1 to 64");
    assert_eq!(
        told(&["2", "32", ""]),
        "refused 6: no token: a formula has 1 to 64"
    );
    assert_eq!(
        told(&["2", "32", "v2"]),
        "refused 6: v2 at token 1: variables are v0 and v1"
    );
    assert!(told(&["2", "32", "(v0+v1)"]).contains("postfix is wanted"));
    assert!(product::USAGE.starts_with("usage: product VARIABLES WIDTH FORMULA\n"));
}

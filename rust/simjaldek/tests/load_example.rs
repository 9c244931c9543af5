//! What examples/load.rs writes.

#[allow(dead_code)]
#[path = "../examples/load.rs"]
mod load;

use simjaldek::Refusal;

/// What is written, and what is refused.
fn run(arguments: &str) -> (String, Option<Refusal>) {
    let arguments: Vec<String> = arguments.split(' ').map(str::to_owned).collect();
    let mut out = Vec::new();
    let refused = load::run(&arguments, &mut out).expect("a vector takes all");
    (String::from_utf8(out).expect("text"), refused)
}

#[test]
fn lines() {
    let text = "\
v0 - -
v1 c1952540566 &
c2430050954 c2776189499 +
c1945068808 ! c3511979981 | - -
v1 ! !
";
    assert_eq!(run("1 2 32 7 5"), (text.to_owned(), None));
    assert_eq!(run("01 2 032 7 005"), (text.to_owned(), None));
    assert_eq!(run("1 2 32 7 0"), (String::new(), None));
    let (text, _) = run("18446744073709551615 6 64 64 1000");
    assert_eq!(text.lines().count(), 1000);
}

/// As the program has it: 9 first, and a number that is too large for its parameter by the number as it was given.
#[test]
fn refused() {
    let told = |arguments| {
        let (text, refused) = run(arguments);
        let number = refused.map(Refusal::number).expect("a refusal");
        assert_eq!(text, format!("refused {number}\n"));
        number
    };
    for text in [
        "1 2 32 7",
        "1 2 32 7 5 6",
        "1 2 32 7 x",
        "1 2 32 7 +5",
        "1 2 32 7 ",
        "0 0 0 0 18446744073709551616",
    ] {
        assert_eq!(told(text), 9, "{text}");
    }
    assert_eq!(told("1 0 0 0 0"), 1);
    assert_eq!(told("1 4294967297 32 7 0"), 1);
    assert_eq!(told("1 6 65 65 0"), 2);
    assert_eq!(told("1 6 4294967328 7 5"), 2);
    assert_eq!(told("1 6 64 65 0"), 6);
    assert_eq!(told("1 6 64 0 5"), 6);
    assert_eq!(told("1 6 64 18446744073709551615 5"), 6);
    assert!(load::USAGE.starts_with("usage: load SEED VARIABLES WIDTH LIMIT N\n"));
}

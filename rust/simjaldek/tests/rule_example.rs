//! What examples/rule.rs prints.

#[allow(dead_code)]
#[path = "../examples/rule.rs"]
mod rule;

fn run(arguments: &[&str]) -> Result<String, String> {
    let arguments: Vec<String> = arguments.iter().map(|&text| text.to_owned()).collect();
    rule::run(&arguments).map_err(|error| error.to_string())
}

/// The records at which the rule fires.
fn fires(arguments: &[&str]) -> Vec<usize> {
    let text = run(arguments).expect("a window");
    let lines = text.lines().enumerate();
    let fires = lines.filter(|(_, line)| line.ends_with(", the rule fires"));
    fires.map(|(record, _)| record).collect()
}

#[test]
fn a_descent() {
    let text = "\
rule v0 v1 - + c32768 & in 3 of the last 4 records
record 1: height 30431
record 2: height 30447
record 3: height 30442, fell
record 4: height 30460
record 5: height 30457, fell
record 6: height 30463
record 7: height 30478
record 8: height 30490
record 9: height 30503
record 10: height 30466, fell
record 11: height 30371, fell
record 12: height 30402
record 13: height 30288, fell, the rule fires
record 14: height 30190, fell, the rule fires
record 15: height 30084, fell, the rule fires
record 16: height 29970, fell, the rule fires
record 17: height 29990, the rule fires
record 18: height 29861, fell, the rule fires
";
    assert_eq!(run(&["3", "4"]).as_deref(), Ok(text));
}

#[test]
fn other_windows() {
    let fell = [3, 5, 10, 11, 13, 14, 15, 16, 18];
    assert_eq!(fires(&["1", "1"]), fell);
    assert_eq!(fires(&["2", "2"]), [11, 14, 15, 16]);
    assert_eq!(fires(&["4", "5"]), [14, 15, 16, 17, 18]);
    assert_eq!(fires(&["5", "5"]), []);
    assert_eq!(fires(&["9", "64"]), [18]);
    assert_eq!(fires(&["64", "64"]), []);
}

#[test]
fn refused() {
    let told = |arguments: &[&str]| run(arguments).unwrap_err();
    assert_eq!(told(&[]), "two arguments are wanted, not 0");
    assert_eq!(told(&["3", "4", "5"]), "two arguments are wanted, not 3");
    assert_eq!(told(&["x", "4"]), "M is no number: x");
    assert_eq!(told(&["3", "-4"]), "W is no number: -4");
    for window in [["0", "4"], ["5", "4"], ["1", "0"], ["1", "65"]] {
        let refused = "refused 10: a rule's M not 1 to W, or its W not 1 to 64";
        assert_eq!(told(&window), refused);
    }
    assert!(rule::USAGE.starts_with("usage: rule M W\n"));
}

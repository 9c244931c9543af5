//! What examples/log.rs prints.

#[allow(dead_code)]
#[path = "../examples/log.rs"]
mod log;

const RULES: &str = "\
rank 1, burst: v0 v1 - + c32768 & in 3 of the last 4 records
rank 2, signal loss: v2 c12 & in 2 of the last 3 records
";

/// What is told of the soundings in a text.
fn told(text: &str) -> Result<String, String> {
    let told = log::run(text).map_err(|error| error.to_string())?;
    Ok(told.strip_prefix(RULES).expect("the rules").to_owned())
}

#[test]
fn descents() {
    let text = "\
sounding 1: 10 records, closed at record 6 by burst, later records with a firing: 4
sounding 2: 9 records, closed at record 5 by burst, later records with a firing: 3
sounding 3: 9 records, closed at record 3 by signal loss, later records with a firing: 4
sounding 4: 5 records, no close
";
    assert_eq!(told(log::DESCENT).as_deref(), Ok(text));
}

/// On the record that closes the second sounding the signal is lost too: without the falls it closes the sounding there.
#[test]
fn both_on_one_record() {
    let second = log::DESCENT.split("\nopen\n").nth(2).expect("a sounding");
    let records = second.lines().map(|line| {
        let words: Vec<&str> = line.split_whitespace().take(3).collect();
        words
            .get(2)
            .map_or(String::new(), |lost| format!("1 0 {lost}\n"))
    });
    let rising: String = ["open\n".to_owned()].into_iter().chain(records).collect();
    let closed = "sounding 1: 9 records, closed at record 5 by signal loss, later records with a firing: 2\n";
    assert_eq!(told(&rising).as_deref(), Ok(closed));
}

#[test]
fn other_texts() {
    assert_eq!(told("").as_deref(), Ok(""));
    assert_eq!(told("# none\n1 2 15\n1 2 15\n").as_deref(), Ok(""));
    let none = "sounding 1: 0 records, no close\nsounding 2: 1 records, no close\n";
    assert_eq!(
        told("open\nopen # again\n 1 2  15 # one\n").as_deref(),
        Ok(none)
    );
    assert_eq!(told("open\n1 2 x\n").unwrap_err(), "line 2: no number: x");
    for line in ["1 2", "1 2 3 4", "1 2 3 4 5 6"] {
        let refused = told(&format!("\n{line}\n")).unwrap_err();
        assert!(refused.starts_with("line 2: refused 4: "), "{refused}");
    }
    assert!(log::USAGE.starts_with("usage: log [FILE]\n"));
}

//! The comparison of programs, with the plain statement as the program, and with another one.

use differential::program::compare_short;

#[test]
fn the_plain_statement() {
    let tally = compare_short(env!("CARGO_BIN_EXE_differential"), &["load"]);
    assert!(tally.texts > 100, "{tally}");
    assert!(tally.differences.is_empty(), "{tally}");
}

#[test]
fn another_program() {
    let tally = compare_short("cat", &[]);
    assert_eq!(tally.differences.len() as u64, tally.texts, "{tally}");
}

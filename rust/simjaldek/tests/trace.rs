//! docs/TRACE.md names what is there: each must-fail edit, each crate's mutants and each module that it cites, and no cell is empty.

use std::path::{Path, PathBuf};

const TRACE: &str = include_str!("../../../docs/TRACE.md");
const MUTANTS: &str = include_str!("../../../docs/MUTANTS.md");

fn crates() -> PathBuf {
    Path::new(env!("CARGO_MANIFEST_DIR")).join("../../crates")
}

/// What stands between backquotes.
fn quoted() -> impl Iterator<Item = &'static str> {
    TRACE
        .lines()
        .flat_map(|line| line.split('`').skip(1).step_by(2))
}

#[test]
fn edits() {
    let mut count = 0;
    for name in quoted() {
        let Some((krate, edit)) = name.split_once('/') else {
            continue;
        };
        let folder = crates().join(krate);
        if folder.is_dir() {
            let path = folder.join("must-fail").join(edit).with_extension("edit");
            assert!(path.is_file(), "{name}");
            count += 1;
        }
    }
    assert!(count > 60, "{count}");
}

/// Mutants of A, B: docs/MUTANTS.md has a row for each.
#[test]
fn mutants() {
    let mut count = 0;
    let rows = TRACE.lines().filter(|line| line.starts_with('|'));
    for names in rows.filter_map(|row| row.split_once("mutants of ")) {
        let names = names.1.split(['|', ';']).next().expect("a name");
        for krate in names.split(',').map(str::trim) {
            assert!(crates().join(krate).is_dir(), "{krate}");
            assert!(MUTANTS.contains(&format!("| {krate} |")), "{krate}");
            count += 1;
        }
    }
    assert!(count > 40, "{count}");
}

/// `name` (crate Module): the module is one of the crate's specs/ or proofs/, and has the name.
#[test]
fn definitions() {
    let mut count = 0;
    for (before, after) in TRACE.match_indices("` (").map(|(at, _)| TRACE.split_at(at)) {
        let name = before.rsplit('`').next().expect("a quoted name");
        let inside = after[3..]
            .split([')', ','])
            .next()
            .expect("a closing bracket");
        let Some((krate, module)) = inside.split_once(' ') else {
            continue;
        };
        let is_module =
            module.starts_with(|c: char| c.is_ascii_uppercase()) && !module.contains(' ');
        if !is_module || !crates().join(krate).is_dir() {
            continue;
        }
        let text = |part: &str| {
            let path = crates().join(krate).join(part).join(module);
            std::fs::read_to_string(path.with_extension("antt")).unwrap_or_default()
        };
        let text = text("specs") + &text("proofs");
        assert!(text.contains(name), "{name} ({inside})");
        count += 1;
    }
    assert!(count > 50, "{count}");
}

#[test]
fn no_empty_cell() {
    for line in TRACE.lines().filter(|line| line.starts_with('|')) {
        let cells = line.trim_matches('|').split('|');
        assert!(cells.map(str::trim).all(|cell| !cell.is_empty()), "{line}");
    }
}

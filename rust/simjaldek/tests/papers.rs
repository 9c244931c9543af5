//! docs/CALLS.md has every exported call with its parameters, and a meaning for each name; docs/SPECIFICATION.md the sizes that are built.

#[path = "common/exports.rs"]
mod exports;

use exports::exports;

const CALLS: &str = include_str!("../../../docs/CALLS.md");
const README: &str = include_str!("../../../README.md");
const SPECIFICATION: &str = include_str!("../../../docs/SPECIFICATION.md");

#[test]
fn every_export_has_its_entry() {
    for export in exports() {
        let name = export.name.trim_start_matches("simjaldek_");
        let parameters: Vec<&str> = export.parameters.iter().map(|(name, _)| *name).collect();
        let entry = format!("{name}({})`", parameters.join(", "));
        let there = ["`", "::"]
            .iter()
            .any(|before| CALLS.contains(&format!("{before}{entry}")));
        assert!(there, "docs/CALLS.md has no `{entry}");
    }
}

#[test]
fn every_parameter_has_its_meaning() {
    let from = CALLS.find("## Vocabulary").expect("the vocabulary");
    let to = CALLS.find("## Reading an entry").expect("its end");
    let vocabulary = &CALLS[from..to];
    for export in exports() {
        for (parameter, _) in export.parameters {
            let there = vocabulary.contains(&format!("`{parameter}`"));
            assert!(
                there,
                "the vocabulary has no {parameter}, of {}",
                export.name
            );
        }
    }
}

#[allow(dead_code)]
#[path = "../examples/sizes.rs"]
mod sizes;

#[test]
fn the_table_of_sizes_is_what_is_built() {
    let table = sizes::table().expect("nothing is refused");
    assert!(SPECIFICATION.contains(&table), "{table}");
    let shown = README.replace([',', '*'], "");
    for width in [16, 32, 64] {
        let lines = table
            .lines()
            .filter(|line| line.contains(&format!("| {width} | ")));
        let lines: Vec<String> = lines
            .map(|line| line.replacen(&format!("| {width} "), "", 1))
            .collect();
        assert_eq!(lines.len(), 6);
        assert!(lines.iter().all(|line| shown.contains(line)), "{lines:?}");
    }
}

//! A small run: a few rounds, all kinds, no difference but those of docs/DIFFERENCES.md.

use differential::report::{Kind, Report};
use differential::{run, run_loads, run_logs, run_products, run_residuals, run_rules};

const COUNT: u64 = 600;
const PRODUCTS: u64 = 4000;
const RESIDUALS: u64 = 4000;
const DRAWN: u64 = 2000;
const RULES: u64 = 4000;
const LOGS: u64 = 2000;
const RAW: u64 = 4000;

#[test]
fn no_other_difference() {
    let report = run(1, COUNT);
    assert!(report.comparisons() >= COUNT);
    for kind in Kind::ALL {
        assert!(report.of_kind(kind) > 0, "{kind:?}");
    }
    assert_eq!(report.others(), 0, "{report}");
}

/// A run of product searches meets every answer, ties, thousands of fits, and both cases of D2, each with ours the plain statement's.
#[test]
fn every_product_answer() {
    let report = run_products(1, PRODUCTS);
    assert_eq!(report.others(), 0, "{report}");
    let text = report.to_string();
    let counts = text.lines().filter(|line| line.starts_with("products"));
    assert_eq!(counts.clone().count(), 10, "{report}");
    for count in counts {
        assert!(!count.ends_with(": 0"), "{count}");
    }
    let known = |kind: &str, place: usize| {
        let line = text.lines().find(|line| line.starts_with(kind));
        line.is_some_and(|line| line.split_whitespace().nth(place) != Some("0"))
    };
    let (d1, d2) = (2, 3);
    assert!(known("LeastProduct", d1) && known("ProductLoop", d1));
    assert!(known("TwoAtoms", d2) && known("ProductLoop", d2));
}

/// A run of residual searches meets every answer: each gate with a bank slot and with a pair, nothing, rows that repeat.
#[test]
fn every_residual_answer() {
    let report = run_residuals(1, RESIDUALS);
    assert_eq!(report.others(), 0, "{report}");
    let text = report.to_string();
    let counts = text.lines().filter(|line| line.starts_with("residual"));
    assert_eq!(counts.clone().count(), 11, "{report}");
    for count in counts {
        assert!(!count.ends_with(": 0"), "{count}");
    }
}

/// A run meets gates on words from 2^w up, in one row and in both, and targets that match and that don't; and D1, over lent indexes.
#[test]
fn words_that_reach_the_width() {
    let report = run(2, RAW);
    assert_eq!(report.others(), 0, "{report}");
    let text = report.to_string();
    let counts = text.lines().filter(|line| line.contains("words from 2^w"));
    assert_eq!(counts.clone().count(), 6, "{report}");
    for count in counts {
        assert!(!count.ends_with(": 0"), "{count}");
    }
    let known = |kind: &str| {
        let line = text.lines().find(|line| line.starts_with(kind));
        line.is_some_and(|line| line.split_whitespace().nth(2) != Some("0"))
    };
    assert!(known("Candidates") && known("ProductLoop"), "{report}");
}

/// A run of loads meets formulas of the greatest length.
#[test]
fn loads() {
    let report = run_loads(1, DRAWN);
    assert_eq!(report.others(), 0, "{report}");
    assert!(report.of_kind(Kind::DrawnLoad) > 0);
    let text = report.to_string();
    let counts = text.lines().filter(|line| line.starts_with("drawn: "));
    assert_eq!(counts.clone().count(), 2, "{report}");
    for count in counts {
        assert!(!count.ends_with(": 0"), "{count}");
    }
}

/// A run of rules meets every window, both answers, counts at the edge of M and records at the edge of W, words from 2^w up that alone would
/// count, and every refusal.
#[test]
fn rules() {
    let report = run_rules(1, RULES);
    let kinds = [Kind::RuleCall, Kind::RuleRun, Kind::RefusedRule];
    meets(&report, kinds, ("rule: ", 10), &[1, 2, 4, 6, 10]);
}

/// A run of logs meets every way of a record through an open log, also by itself, logs that aren't, counters at their ends, and every refusal.
#[test]
fn logs() {
    let report = run_logs(1, LOGS);
    let kinds = [Kind::LogCall, Kind::LogRun, Kind::RefusedLog];
    meets(&report, kinds, ("log: ", 17), &[1, 2, 4, 6, 10, 11]);
}

/// A hundred of each kind, no difference, so many things that all came up, and every refusal.
fn meets(report: &Report, kinds: [Kind; 3], (named, count): (&str, usize), refusals: &[usize]) {
    assert_eq!(report.others(), 0, "{report}");
    for kind in kinds {
        assert!(report.of_kind(kind) > 100, "{report}");
    }
    let text = report.to_string();
    let counts = text.lines().filter(|line| line.starts_with(named));
    assert_eq!(counts.clone().count(), count, "{report}");
    for count in counts {
        assert!(!count.ends_with(": 0"), "{count}");
    }
    let refused = text.lines().find(|line| line.starts_with("calls refused"));
    let numbers = refused.and_then(|line| line.split(['[', ']']).nth(1));
    let numbers: Vec<&str> = numbers.expect("a list").split(", ").collect();
    assert!(
        refusals.iter().all(|&number| numbers[number - 1] != "0"),
        "{report}"
    );
}

#[test]
fn all_kinds_are_listed() {
    let places = Kind::ALL.map(|kind| kind as usize);
    assert!(places.iter().copied().eq(0..places.len()));
    assert_eq!(
        Kind::ALL.last(),
        Some(&Kind::RefusedFingerprint),
        "the last of the enum"
    );
}

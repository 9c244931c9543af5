//! src/ffi.rs declares what the Rattle sources export: the same functions, parameters, answers and structs, in the same order.

#[path = "common/exports.rs"]
mod exports;

use exports::{exports, Export, STRUCT};

const STRUCTS: &str = include_str!("../../../crates/simjaldek_abi/src/lib.rt");
const DECLARED: &str = include_str!("../src/ffi.rs");

/// What stands between `open` and `close`, without line ends and indents, and the text after it.
fn between<'a>(text: &'a str, open: &str, close: &str) -> Option<(String, &'a str)> {
    let (inside, after) = text.split_once(open)?.1.split_once(close)?;
    let words: Vec<&str> = inside.split_whitespace().collect();
    Some((words.join(" "), after))
}

/// A list without a comma at its end.
fn items(list: &str) -> Vec<String> {
    let all = list.split(", ").map(|item| item.trim_end_matches(','));
    let filled = all.filter(|item| !item.is_empty());
    filled.map(str::to_owned).collect()
}

/// A parameter as C has it: a slice is a pointer and a length.
fn as_c(name: &str, of: &str) -> Vec<String> {
    let slice = |open: &str, pointer: &str| {
        let element = of.strip_prefix(open)?.strip_suffix(']')?;
        let length = format!("{name}_len: usize");
        Some(vec![format!("{name}: {pointer} {element}"), length])
    };
    slice("&[", "*const")
        .or_else(|| slice("&mut [", "*mut"))
        .unwrap_or_else(|| vec![format!("{name}: {of}")])
}

/// A function with its parameters as C has them, and its answer.
type Function = (String, Vec<String>, String);

fn exported(export: Export) -> Function {
    let parameters = export.parameters.iter();
    let parameters = parameters.flat_map(|(name, of)| as_c(name, of)).collect();
    (export.name.to_owned(), parameters, export.answer.to_owned())
}

/// Each function of src/ffi.rs.
fn declared() -> Vec<Function> {
    let mut all = Vec::new();
    let mut text = DECLARED;
    while let Some((inside, after)) = between(text, "pub fn ", ")") {
        let (name, list) = inside.split_once('(').expect("a function has parameters");
        let answer = after.trim_start().strip_prefix("-> ");
        let answer = answer.and_then(|rest| rest.split(';').next());
        let answer = answer.expect("it answers").to_owned();
        all.push((name.to_owned(), items(list.trim_start()), answer));
        text = after;
    }
    all
}

/// Each `repr(C)` struct of a text, which begins with `mark`: its name and fields.
fn structs(mut text: &str, mark: &str) -> Vec<String> {
    let mut all = Vec::new();
    while let Some((inside, after)) = between(text, mark, "}") {
        all.push(inside);
        text = after;
    }
    all
}

#[test]
fn declared_functions() {
    let exported: Vec<Function> = exports().into_iter().map(exported).collect();
    assert_eq!(exported, declared());
}

#[test]
fn declared_structs() {
    let exported = structs(STRUCTS, STRUCT);
    assert_eq!(exported.len(), STRUCTS.matches("#[repr(C)]").count());
    assert_eq!(exported, structs(DECLARED, "#[repr(C)]\npub struct "));
}

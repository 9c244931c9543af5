//! The exports of crates/simjaldek/src/lib.rt, read from its text.
#![allow(dead_code)]

const LIBRARY: &str = include_str!("../../../../crates/simjaldek/src/lib.rt");
const ATTRIBUTE: &str = "#[unsafe(no_mangle)]";
const MARK: &str = "#[unsafe(no_mangle)]\npub extern \"C\" fn ";
/// What stands before the name of a struct that crosses the interface, below its comment.
pub const STRUCT: &str = "#[repr(C)]\n#[derive(Clone, Copy)]\npub struct ";

/// An exported function.
pub struct Export {
    /// The comment above it, without the slashes.
    pub comment: String,
    /// Its name.
    pub name: &'static str,
    /// Its parameters' names and types.
    pub parameters: Vec<(&'static str, &'static str)>,
    /// Its answer's type.
    pub answer: &'static str,
}

/// All exports, in the text's order.
pub fn exports() -> Vec<Export> {
    let places = LIBRARY.match_indices(MARK);
    let all: Vec<Export> = places.map(|(place, _)| export(place)).collect();
    assert_eq!(all.len(), LIBRARY.matches(ATTRIBUTE).count());
    all
}

fn export(place: usize) -> Export {
    let text = &LIBRARY[place + MARK.len()..];
    let (name, rest) = text.split_once('(').expect("a function has parameters");
    let (list, rest) = rest.split_once(") -> ").expect("a function answers");
    Export {
        comment: comment_above(LIBRARY, place),
        name,
        parameters: list.split(',').filter_map(parameter).collect(),
        answer: rest.split_whitespace().next().expect("a type"),
    }
}

/// A parameter's name and type; none for what stands after the last comma.
fn parameter(item: &str) -> Option<(&str, &str)> {
    let (name, of) = item.split_once(':')?;
    Some((name.trim(), of.trim()))
}

/// The lines of comment directly above a place of a text.
pub fn comment_above(text: &str, place: usize) -> String {
    let above = text[..place].lines().rev();
    let lines = above.map_while(|line| line.strip_prefix("// "));
    let mut lines: Vec<&str> = lines.collect();
    assert!(!lines.is_empty(), "a declaration without a comment");
    lines.reverse();
    lines.join("\n   ")
}

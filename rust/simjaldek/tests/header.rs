//! include/simjaldek.h is what the Rattle sources export, in C: made from their texts, comments included.
//!
//! `SIMJALDEK_HEADER=write cargo test -p simjaldek --test header` writes the file anew.

#[path = "common/exports.rs"]
mod exports;

use exports::{comment_above, exports, STRUCT};
use std::env;
use std::fmt::Write;
use std::fs;
use std::process::Command;

const STRUCTS: &str = include_str!("../../../crates/simjaldek_abi/src/lib.rt");
const INCLUDE: &str = concat!(env!("CARGO_MANIFEST_DIR"), "/../../include");
const HEADER: &str = concat!(env!("CARGO_MANIFEST_DIR"), "/../../include/simjaldek.h");

const HEAD: &str = "/* The static library of Simjaldek, for C programs; docs/CALLS.md says what each call needs, refuses and answers.
   Made from the exports of crates/simjaldek and crates/simjaldek_abi by rust/simjaldek/tests/header.rs.

   What an answer means: a product, or a completion by xor or sum, has the target's words at the sixteen points and may
   differ elsewhere, so compare the formulas beyond the points. A product is the cheapest that fits of two atoms and of an atom
   and a listed pair, by the cost of the whole formula written out, and among equals the first in the order of the search; a
   completion is the first that fits, not the cheapest. \"Nothing\" is certain only with a whole index of these very atoms at this
   width, for completions only where a bank build left the atoms, or their rows are below 2^w, or one of them is 0 modulo 2^w.
   That arrays, counts and widths belong together is not tested.

   A rule's run begins with state 0, a closing log as zeros; each call after the first is handed the state, or the log, that
   the one before it gave.

   Opcodes: 0 constant, 1 variable, 2 Add, 3 Mul, 4 And, 5 Or, 6 Xor, 7 Not, 8 Neg. Gates have numbers of their own: 0 And,
   1 Or, 2 Xor, 3 Add, 4 Mul.

   An array goes as its first element's address and its length. An array that is written must not overlap another.
   `refusal`, where a reply has it, is 0 for an answer, else why there is none: 1 variable count, 2 width, 3 limit, 4 array
   too short, 5 word not below 2^w, 6 no formula, no gate or no token limit, 7 too many atoms or pairs, a slot past the count
   or a pair's gate above 4, 8 order list, 10 m not 1 to the window or the window not 1 to 64, 11 no rule, more than eight, a
   rank not 1 to 8 or two equal ranks. Beside a refusal no array was written, and the rest of the reply is zeros, but for a
   state or a log that was handed in: it is as it was. */
#ifndef SIMJALDEK_H
#define SIMJALDEK_H

#include <stddef.h>
#include <stdint.h>

#ifdef __cplusplus
extern \"C\" {
#endif
";

const FOOT: &str = "
#ifdef __cplusplus
}
#endif

#endif
";

/// A type in C: a number's, or a struct's of ours.
fn c_type(name: &str) -> String {
    match name {
        "u8" => "uint8_t".to_owned(),
        "u32" => "uint32_t".to_owned(),
        "u64" => "uint64_t".to_owned(),
        "usize" => "size_t".to_owned(),
        ours => format!("struct simjaldek_{}", snake_case(ours)),
    }
}

fn snake_case(name: &str) -> String {
    let mut text = String::new();
    for (place, letter) in name.char_indices() {
        if letter.is_uppercase() && place > 0 {
            text.push('_');
        }
        text.push(letter.to_ascii_lowercase());
    }
    text
}

/// A field or parameter as C declares it.
fn c_declaration(name: &str, of: &str) -> String {
    if let Some(element) = of.strip_prefix("&mut [") {
        let element = c_type(element.trim_end_matches(']'));
        return format!("{element} *{name}, size_t {name}_len");
    }
    if let Some(element) = of.strip_prefix("&[") {
        let element = c_type(element.trim_end_matches(']'));
        return format!("const {element} *{name}, size_t {name}_len");
    }
    if let Some((element, length)) = of.strip_prefix('[').and_then(|of| of.split_once("; ")) {
        let length = length.trim_end_matches(']');
        return format!("{} {name}[{length}]", c_type(element));
    }
    format!("{} {name}", c_type(of))
}

/// Each struct with the comment above it.
fn c_structs(text: &mut String) {
    for (place, _) in STRUCTS.match_indices(STRUCT) {
        let body = STRUCTS[place + STRUCT.len()..].split('}').next();
        let (name, fields) = body.and_then(|body| body.split_once(" {")).expect("fields");
        let comment = comment_above(STRUCTS, place);
        write!(text, "\n/* {comment} */\n{} {{\n", c_type(name)).unwrap();
        for field in fields
            .lines()
            .filter_map(|line| line.trim().strip_prefix("pub "))
        {
            let (name, of) = field
                .trim_end_matches(',')
                .split_once(": ")
                .expect("a type");
            writeln!(text, "    {};", c_declaration(name, of)).unwrap();
        }
        text.push_str("};\n");
    }
}

/// Each function with the comment above it.
fn c_functions(text: &mut String) {
    for export in exports() {
        let parameters = export.parameters.iter();
        let parameters: Vec<String> = parameters
            .map(|(name, of)| c_declaration(name, of))
            .collect();
        write!(
            text,
            "\n/* {} */\n{} {}(\n    {});\n",
            export.comment,
            c_type(export.answer),
            export.name,
            parameters.join(",\n    ")
        )
        .unwrap();
    }
}

fn header() -> String {
    let mut text = HEAD.to_owned();
    c_structs(&mut text);
    c_functions(&mut text);
    text + FOOT
}

#[test]
fn header_is_what_is_exported() {
    let made = header();
    if env::var_os("SIMJALDEK_HEADER").is_some_and(|word| word == "write") {
        fs::write(HEADER, &made).expect("the header is written");
    }
    let held = fs::read_to_string(HEADER).expect("include/simjaldek.h");
    assert!(
        held == made,
        "include/simjaldek.h isn't what is exported: see the head of this test"
    );
}

/// Compiles include/example.c as README.md says, and gives what it prints.
#[test]
fn a_c_program_links_and_runs() {
    let program = concat!(env!("CARGO_TARGET_TMPDIR"), "/example");
    let archive = concat!(env!("OUT_DIR"), "/libsimjaldek.a");
    let source = format!("{INCLUDE}/example.c");
    let compiled = Command::new("cc")
        .args([
            "-std=c99",
            "-Wall",
            "-Wextra",
            "-pedantic",
            "-Werror",
            "-I",
            INCLUDE,
        ])
        .args([&source, archive, "-o", program])
        .status();
    assert!(compiled.expect("cc, which rustc links with").success());
    let ran = Command::new(program).output().expect("the program runs");
    let printed = String::from_utf8(ran.stdout).expect("text");
    let text = "\
atoms 54 pairs 5174 whole
v0 v0 v1 + *
the same values at the sixteen points; elsewhere unknown
atoms 53 pairs 4930 whole
v0 v1 ^ v0 v1 + v0 v1 + * +
the same values at the sixteen points; elsewhere unknown
the rule fires at records 3 4 5
sounding 1: closed at record 3 by rank 1, later 2
sounding 2: closed at record 2 by rank 2, later 1
";
    assert_eq!(printed, text);
}

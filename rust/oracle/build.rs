//! Brings the originals of binsnake/cobra into the build.
//!
//! `COBRA_SRC` names a folder that holds them as a checkout does (`crates/cobra-core/src/arith.rs` and so on). Each
//! original is copied to `OUT_DIR` as it is; only `template_decomposer.rs` gets a declaration more at its end, which
//! makes src/access/mod.rs its child module, so that private functions can be reached. For each parent module of src/lib.rs a
//! file of `mod` lines is written, which src/lib.rs includes. Nothing of the originals is kept in this repository.

use std::env;
use std::fs;
use std::path::{Path, PathBuf};

/// The original that gets the access module.
const OPENED: &str = "template_decomposer";

/// The parent modules: the file of `mod` lines, and the originals in it as (module, place under `COBRA_SRC`).
const PARENTS: [(&str, &[(&str, &str)]); 3] = [
    (
        "core_mods.rs",
        &[
            ("arith", "crates/cobra-core/src/arith.rs"),
            ("compiled", "crates/cobra-core/src/compiled.rs"),
            ("evaluator", "crates/cobra-core/src/evaluator.rs"),
            ("expr", "crates/cobra-core/src/expr.rs"),
            ("expr_cost", "crates/cobra-core/src/expr_cost.rs"),
            ("pass_contract", "crates/cobra-core/src/pass_contract.rs"),
        ],
    ),
    (
        "passes_mods.rs",
        &[(OPENED, "crates/cobra-passes/src/template_decomposer.rs")],
    ),
    ("root_mods.rs", &[("simd", "crates/cobra-simd/src/lib.rs")]),
];

fn main() {
    println!("cargo:rerun-if-changed=build.rs");
    println!("cargo:rerun-if-env-changed=COBRA_SRC");
    let source = source_folder();
    let out = PathBuf::from(env::var_os("OUT_DIR").expect("cargo sets OUT_DIR"));
    for (mods_file, originals) in PARENTS {
        let mods: String = originals
            .iter()
            .map(|(module, place)| bring_in(&source, place, &out, module))
            .collect();
        write(&out.join(mods_file), &mods);
    }
}

/// The folder that `COBRA_SRC` names.
fn source_folder() -> PathBuf {
    match env::var_os("COBRA_SRC") {
        Some(folder) if !folder.is_empty() => PathBuf::from(folder),
        _ => panic!("set COBRA_SRC to the full path of a checkout of binsnake/cobra (the folder that holds crates/)"),
    }
}

/// Copies one original and gives the lines that declare it as a module, with its warnings off.
fn bring_in(source: &Path, place: &str, out: &Path, module: &str) -> String {
    let from = source.join(place);
    let mut text = fs::read_to_string(&from).unwrap_or_else(|error| {
        panic!("COBRA_SRC must be the full path of a folder that holds {place}: {error}")
    });
    println!("cargo:rerun-if-changed={}", from.display());
    if module == OPENED {
        text.push_str(&access_lines());
    }
    let copy = out.join(format!("{module}.rs"));
    write(&copy, &text);
    format!("#[allow(warnings)]\n{}", mod_line(&copy, module))
}

/// The lines that make src/access/mod.rs a child of the original, with warnings on again.
fn access_lines() -> String {
    let package = env::var_os("CARGO_MANIFEST_DIR").expect("cargo sets CARGO_MANIFEST_DIR");
    let access = Path::new(&package).join("src/access/mod.rs");
    format!("\n#[warn(warnings)]\n{}", mod_line(&access, "access"))
}

fn mod_line(file: &Path, module: &str) -> String {
    format!(
        "#[path = {:?}]\npub mod {module};\n",
        file.display().to_string()
    )
}

fn write(file: &Path, text: &str) {
    fs::write(file, text).unwrap_or_else(|error| panic!("{}: {error}", file.display()));
}

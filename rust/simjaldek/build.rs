//! Links the static library `libsimjaldek.a`.
//!
//! `SIMJALDEK_LIB_DIR` names, by its full path, a folder that holds a ready archive, of this very commit: nothing tests that it fits.
//! Without it `rt lib` runs in crates/simjaldek, which proves what has changed since it was last proved, and out/libsimjaldek.a there is
//! linked. Cargo is silent while it runs, so what takes long is told past it.

use std::env;
use std::fs::{self, OpenOptions};
use std::io::{IsTerminal, Write};
use std::os::unix::process::parent_id;
use std::path::{Path, PathBuf};
use std::process::Command;
use std::time::Instant;

/// The archive's file name.
const ARCHIVE: &str = "libsimjaldek.a";

fn main() {
    println!("cargo:rerun-if-changed=build.rs");
    println!("cargo:rerun-if-env-changed=SIMJALDEK_LIB_DIR");
    let told = |name: &str| env::var(name).unwrap_or_else(|_| panic!("cargo sets {name}"));
    let target = [told("CARGO_CFG_TARGET_ARCH"), told("CARGO_CFG_TARGET_OS")];
    assert!(
        target == ["x86_64", "linux"],
        "{ARCHIVE} holds code for x86-64 Linux"
    );
    let archive = match env::var_os("SIMJALDEK_LIB_DIR") {
        Some(folder) if !folder.is_empty() => ready_archive(Path::new(&folder)),
        _ => made_archive(),
    };
    link(&archive);
}

/// The archive of a folder.
fn ready_archive(folder: &Path) -> PathBuf {
    let place = folder.display();
    assert!(
        folder.is_absolute(),
        "SIMJALDEK_LIB_DIR isn't a full path: {place}"
    );
    let archive = folder.join(ARCHIVE);
    println!("cargo:rerun-if-changed={}", archive.display());
    archive
}

/// Has `rt` make the archive, and gives its place.
fn made_archive() -> PathBuf {
    let package = env::var_os("CARGO_MANIFEST_DIR").expect("cargo sets CARGO_MANIFEST_DIR");
    let root = Path::new(&package).join("../..");
    rerun_on_changes(&root);
    let folder = root.join("crates/simjaldek");
    tell(
        "rt lib in crates/simjaldek proves the crates first: from nothing some minutes, seconds where proofs are \
         kept; cargo is silent meanwhile",
    );
    let start = Instant::now();
    let output = Command::new("rt")
        .arg("lib")
        .current_dir(&folder)
        .output()
        .unwrap_or_else(|error| {
            panic!("rt, the Rattle kit's command: {error}; or set SIMJALDEK_LIB_DIR to the folder of a ready {ARCHIVE}")
        });
    let said = [output.stdout, output.stderr].concat();
    let said = String::from_utf8_lossy(&said);
    assert!(
        output.status.success(),
        "rt lib in crates/simjaldek failed:\n{said}"
    );
    let seconds = start.elapsed().as_secs_f32();
    tell(&format!(
        "rt lib in crates/simjaldek took {seconds:.1} seconds"
    ));
    let archive = folder.join("out").join(ARCHIVE);
    assert!(
        archive.is_file(),
        "rt lib in crates/simjaldek made no out/{ARCHIVE}:\n{said}"
    );
    archive
}

/// Has cargo run this again where a file of the crates changes. Their out/ folders aren't named, since `rt` writes to them.
fn rerun_on_changes(root: &Path) {
    println!(
        "cargo:rerun-if-changed={}",
        root.join("crates.txt").display()
    );
    let crates = fs::read_dir(root.join("crates")).expect("the repository has crates/");
    for folder in crates.flatten() {
        for part in ["src", "specs", "proofs"] {
            let part = folder.path().join(part);
            if part.is_dir() {
                println!("cargo:rerun-if-changed={}", part.display());
            }
        }
    }
}

/// Writes a line to cargo's own standard error, since cargo keeps what a build script writes to its own. Does nothing where it can't.
fn tell(line: &str) {
    let cargo = Path::new("/proc").join(parent_id().to_string());
    let place = cargo.join("fd/2");
    if overwrites(&cargo, &place) {
        return;
    }
    if let Ok(mut file) = OpenOptions::new().append(true).open(place) {
        // On a terminal cargo's progress bar may stand in this line. In one write, so that nothing of cargo's comes between.
        let clear = if file.is_terminal() { "\r\x1b[K" } else { "" };
        let _ = file.write_all(format!("{clear}simjaldek: {line}\n").as_bytes());
    }
}

/// Whether cargo writes to a file at a place of its own, where it would write over a line that is appended.
fn overwrites(cargo: &Path, place: &Path) -> bool {
    let is_file = fs::metadata(place).is_ok_and(|metadata| metadata.is_file());
    is_file && !appends(cargo).unwrap_or(false)
}

/// Whether cargo's standard error was opened for appending, by the flags that Linux tells in octal.
fn appends(cargo: &Path) -> Option<bool> {
    const O_APPEND: u32 = 0o2000;
    let told = fs::read_to_string(cargo.join("fdinfo/2")).ok()?;
    let flags = told.lines().find_map(|line| line.strip_prefix("flags:"))?;
    let flags = u32::from_str_radix(flags.trim(), 8).ok()?;
    Some(flags & O_APPEND != 0)
}

/// Tells cargo to link a copy of the archive, since `rt ci` sets aside the folder that `rt` writes to.
fn link(archive: &Path) {
    let out = PathBuf::from(env::var_os("OUT_DIR").expect("cargo sets OUT_DIR"));
    // the bytes alone: a copy of a read-only file couldn't be written over by the next build
    let copied = fs::read(archive).and_then(|bytes| fs::write(out.join(ARCHIVE), bytes));
    copied.unwrap_or_else(|error| panic!("can't copy {}: {error}", archive.display()));
    println!("cargo:rustc-link-search=native={}", out.display());
    println!("cargo:rustc-link-lib=static=simjaldek");
}

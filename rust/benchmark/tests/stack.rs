//! Each exported call has its inputs: a child with a large stack ends well, one with too small a stack crashes.

use std::os::unix::process::ExitStatusExt;
use std::process::{Command, ExitStatus, Stdio};

use benchmark::stack::{CALLS, CHILD};

const LIBRARY: &str = include_str!("../../../crates/simjaldek/src/lib.rt");

fn child(name: &str, stack: usize) -> ExitStatus {
    let mut command = Command::new(env!("CARGO_BIN_EXE_benchmark"));
    let command = command.args([CHILD, name, &stack.to_string()]);
    let status = command.stderr(Stdio::null()).status();
    status.expect("the program is there")
}

#[test]
fn every_call_runs() {
    for call in CALLS {
        assert!(child(call.name, 1 << 23).success(), "{}", call.name);
    }
    assert_eq!(child("no_call", 1 << 23).code(), Some(2));
}

#[test]
fn too_small_a_stack() {
    assert!(child("empty", 1 << 15).signal().is_some());
    assert!(child("write_listing", 1 << 17).signal().is_some());
}

/// The calls are the library's exports, in its order.
#[test]
fn every_export() {
    let exports = LIBRARY.split("fn simjaldek_").skip(1);
    let exports = exports.map(|after| after.split('(').next().expect("a name"));
    let calls = CALLS.iter().skip(1).map(|call| call.name);
    assert_eq!(calls.collect::<Vec<_>>(), exports.collect::<Vec<_>>());
}

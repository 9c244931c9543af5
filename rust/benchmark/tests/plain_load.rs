//! Plain Rust's load, as a process: the lines of the binding's load however numbers are written, and the program's refusals.

use std::io::Write;
use std::process::{Command, Stdio};

use benchmark::load::CHILD;
use simjaldek::Load;

/// What plain Rust writes of a text; none for a way of writing numbers that it hasn't.
fn written(how: &str, text: &str) -> Option<String> {
    let mut command = Command::new(env!("CARGO_BIN_EXE_benchmark"));
    let command = command.args([CHILD, how]).stdin(Stdio::piped());
    let command = command.stdout(Stdio::piped()).stderr(Stdio::null());
    let mut child = command.spawn().expect("the program is there");
    let mut stdin = child.stdin.take().expect("a pipe");
    stdin.write_all(text.as_bytes()).expect("it reads all");
    drop(stdin);
    let output = child.wait_with_output().expect("it ends");
    let text = String::from_utf8(output.stdout).expect("text");
    output.status.success().then_some(text)
}

#[test]
fn lines_of_the_binding() {
    for (seed, num_vars, width, limit, n) in [
        (1, 2, 32, 7, 3000),
        (0, 1, 1, 1, 10),
        (u64::MAX, 6, 64, 64, 3000),
        (5, 3, 8, 64, 0),
    ] {
        let load = Load::new(seed, num_vars, width, limit).expect("in range");
        let lines: String = load.take(n).map(|formula| format!("{formula}\n")).collect();
        let text = format!("\r\n 0{seed} {num_vars}\n{width} {limit}\r{n} ");
        for how in ["digits", "formatted"] {
            assert_eq!(written(how, &text).as_ref(), Some(&lines), "{text}");
        }
    }
    assert_eq!(written("otherwise", "1 2 32 7 5"), None);
}

#[test]
fn refused() {
    for (text, number) in [
        ("", 9),
        ("1 2 32 7", 9),
        ("1 2 32 7 5 6", 9),
        ("1 2 32 7\t5", 9),
        ("0 0 0 0 18446744073709551616", 9),
        ("1 0 0 0 0", 1),
        ("1 4294967297 32 7 0", 1),
        ("1 6 65 65 0", 2),
        ("1 6 64 0 0", 6),
        ("1 6 64 65 5", 6),
    ] {
        let line = Some(format!("refused {number}\n"));
        assert_eq!(written("digits", text), line, "{text}");
    }
}

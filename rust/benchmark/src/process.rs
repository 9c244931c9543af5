//! Programs run as processes: what they answer, and the processor time that they take.

use std::io::{self, ErrorKind, Write};
use std::process::{Command, Stdio};
use std::thread;
use std::time::Duration;

use crate::clock::children_time;

/// What a program writes to standard output when it is handed this on standard input.
pub fn answer(command: &mut Command, input: &[u8]) -> io::Result<Vec<u8>> {
    let mut child = command
        .stdin(Stdio::piped())
        .stdout(Stdio::piped())
        .spawn()?;
    let mut stdin = child.stdin.take().expect("a pipe");
    let output = thread::scope(|scope| {
        scope.spawn(move || write_parts(&mut stdin, [input]));
        child.wait_with_output()
    })?;
    assert!(output.status.success(), "{command:?}: {}", output.status);
    Ok(output.stdout)
}

/// The processor time of a program that is handed these parts on standard input, in itself and in the kernel for it. No other process may
/// be waited for meanwhile.
pub fn processor_time<'a>(
    command: &mut Command,
    parts: impl IntoIterator<Item = &'a [u8]>,
) -> io::Result<Duration> {
    let before = children_time();
    let mut child = command.stdin(Stdio::piped()).spawn()?;
    let mut stdin = child.stdin.take().expect("a pipe");
    write_parts(&mut stdin, parts)?;
    drop(stdin);
    let status = child.wait()?;
    assert!(status.success(), "{command:?}: {status}");
    Ok(children_time() - before)
}

/// Writes the parts; a program that reads no further is no error.
fn write_parts<'a>(
    stdin: &mut impl Write,
    parts: impl IntoIterator<Item = &'a [u8]>,
) -> io::Result<()> {
    for part in parts {
        match stdin.write_all(part) {
            Err(error) if error.kind() == ErrorKind::BrokenPipe => return Ok(()),
            written => written?,
        }
    }
    Ok(())
}

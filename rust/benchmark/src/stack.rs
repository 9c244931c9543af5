//! The stack that each exported call needs. A call runs in a thread of a given stack size in a child process, which is this program
//! with hidden arguments; the least size at which it doesn't crash is looked for, and compared with that of an empty call.

mod calls;

use std::env;
use std::hint::black_box;
use std::io;
use std::os::unix::process::ExitStatusExt;
use std::process::{Command, Stdio};
use std::thread;

pub use calls::{Call, Work, CALLS};

/// The first of a child's arguments; the call's name and the stack size follow.
pub const CHILD: &str = "stack-child";

/// Sizes are multiples of it.
const STEP: usize = 4096;
/// Steps that are enough for every call.
const STEPS_MAX: usize = 2048;
/// What each thread uses before the call, so that the least stack that the C library gives a thread is never enough.
const BALLAST: usize = 64 * 1024;

/// A table of all calls.
pub fn markdown() -> io::Result<String> {
    let empty = least_steps("empty")?;
    let mut text = String::from("| Call | With | Stack, under |\n|---|---|---|\n");
    for Call { name, with, .. } in CALLS {
        if name == "empty" {
            continue;
        }
        // Both are rounded up, so that the difference may be one step more.
        let steps = least_steps(name)?.saturating_sub(empty) + 1;
        let kilobytes = steps * STEP / 1024;
        text.push_str(&format!("| `{name}` | {with} | {kilobytes} KB |\n"));
    }
    Ok(text)
}

/// The least number of steps with which a call doesn't crash.
fn least_steps(name: &str) -> io::Result<usize> {
    assert!(
        fits(name, STEPS_MAX)?,
        "{name} takes more than {STEPS_MAX} steps"
    );
    let (mut low, mut high) = (0, STEPS_MAX);
    while high - low > 1 {
        let middle = (low + high) / 2;
        if fits(name, middle)? {
            high = middle;
        } else {
            low = middle;
        }
    }
    Ok(high)
}

/// Whether a child with a stack of so many steps ends well. It crashes by a signal; what it says of it is dropped.
fn fits(name: &str, steps: usize) -> io::Result<bool> {
    let status = Command::new(env::current_exe()?)
        .args([CHILD, name, &(steps * STEP).to_string()])
        .stderr(Stdio::null())
        .status()?;
    assert!(
        status.success() || status.signal().is_some(),
        "the child for {name} failed: {status}"
    );
    Ok(status.success())
}

/// What the child does: the call in a thread with a stack of so many bytes. False for a name that no call has.
pub fn child(name: &str, stack: usize) -> io::Result<bool> {
    let Some(call) = CALLS.iter().find(|call| call.name == name) else {
        return Ok(false);
    };
    let work = (call.work)();
    let thread = thread::Builder::new().stack_size(stack);
    let ran = thread.spawn(move || above_ballast(work))?.join();
    Ok(ran.is_ok())
}

/// Runs the work above a large frame.
#[inline(never)]
fn above_ballast(work: Work) {
    let mut ballast = [1u8; BALLAST];
    black_box(&mut ballast);
    work();
    black_box(&mut ballast);
}

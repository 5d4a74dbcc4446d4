//! Runs a proved program as a child process.

use std::io::{Read, Write};
use std::process::{Child, Command, Stdio};
use std::sync::Mutex;

use crate::report::Output;

/// Where a worker keeps its child, so that it can be ended when the time is over.
pub type Slot = Mutex<Option<Child>>;

pub fn run(program: &str, input: &[u8], slot: &Slot) -> Result<Output, String> {
    let failed = |what: &str| format!("{program}: {what}");
    let mut child = Command::new(program)
        .stdin(Stdio::piped())
        .stdout(Stdio::piped())
        .spawn()
        .map_err(|error| failed(&error.to_string()))?;
    let (stdin, stdout) = (child.stdin.take(), child.stdout.take());
    let (Some(mut stdin), Some(mut stdout)) = (stdin, stdout) else {
        return Err(failed("no pipes"));
    };
    *lock(slot) = Some(child);
    let mut text = Vec::new();
    let read = std::thread::scope(|scope| {
        // A program may end before it has read everything, so a failed write is no matter.
        scope.spawn(move || stdin.write_all(input).ok());
        stdout.read_to_end(&mut text)
    });
    let child = lock(slot).take();
    let status = child.and_then(|mut child| child.wait().ok()).and_then(|status| status.code());
    match (read, status) {
        (Ok(_), Some(status)) => Ok(Output { text, status }),
        _ => Err(failed("ended by a signal, or its output could not be read")),
    }
}

pub fn end_child(slot: &Slot) {
    if let Some(child) = lock(slot).as_mut() {
        child.kill().ok();
    }
}

fn lock(slot: &Slot) -> std::sync::MutexGuard<'_, Option<Child>> {
    slot.lock().unwrap_or_else(|poisoned| poisoned.into_inner())
}

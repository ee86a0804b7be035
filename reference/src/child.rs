//! Runs the first program on one input.

use std::io::{Read, Write};
use std::process::{Child, Command, Stdio};

/// A program that is not there is no difference.
pub fn check(program: &str) -> Result<(), String> {
    let found = std::fs::metadata(program).is_ok_and(|found| found.is_file());
    found.then_some(()).ok_or_else(|| format!("{program}: no such program"))
}

/// What the program wrote; a program killed by a signal is told apart, so that
/// a crash after right output is still seen.
pub fn run(program: &str, input: &[u8]) -> Result<Vec<u8>, String> {
    let mut child = Command::new(program)
        .stdin(Stdio::piped())
        .stdout(Stdio::piped())
        .stderr(Stdio::null())
        .spawn()
        .map_err(|error| format!("{program}: {error}"))?;
    let output = feed_and_read(&mut child, input);
    let status = child.wait().map_err(|error| error.to_string())?;
    if status.code().is_none() {
        return Err(format!("{program}: ended by a signal ({status})"));
    }
    output
}

/// A pipe holds this much without a reader, so short input needs no thread.
const PIPE: usize = 4096;

fn feed_and_read(child: &mut Child, input: &[u8]) -> Result<Vec<u8>, String> {
    let mut stdin = child.stdin.take().expect("stdin is piped");
    let mut stdout = child.stdout.take().expect("stdout is piped");
    let mut output = Vec::new();
    // A program may stop before it has read all: a broken pipe is no fault.
    let feed = move || {
        let _ = stdin.write_all(input);
        drop(stdin);
    };
    let read = if input.len() <= PIPE {
        feed();
        stdout.read_to_end(&mut output)
    } else {
        std::thread::scope(|scope| {
            scope.spawn(feed);
            stdout.read_to_end(&mut output)
        })
    };
    read.map_err(|error| error.to_string())?;
    Ok(output)
}

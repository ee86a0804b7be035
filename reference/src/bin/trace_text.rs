//! Traces as text: `trace_text encode < text > bytes`,
//! `trace_text decode < bytes > text`, and `trace_text replay FIRST-PROGRAM <
//! text`, which shows each event beside its answer and actions.

use reference::text::{self, Trace};
use reference::{child, replay};
use std::io::{Read, Write};
use std::process::ExitCode;

const USAGE: &str = "usage: trace_text encode | decode | replay FIRST-PROGRAM";

fn main() -> ExitCode {
    let arguments: Vec<String> = std::env::args().skip(1).collect();
    let words: Vec<&str> = arguments.iter().map(String::as_str).collect();
    match output(&words) {
        Ok(bytes) => match std::io::stdout().write_all(&bytes) {
            Ok(()) => ExitCode::SUCCESS,
            Err(_) => ExitCode::FAILURE,
        },
        Err(message) => {
            eprintln!("trace_text: {message}");
            ExitCode::FAILURE
        }
    }
}

fn output(words: &[&str]) -> Result<Vec<u8>, String> {
    match words {
        ["encode"] => Ok(read_text()?.to_bytes()),
        ["decode"] => Ok(text::print(&Trace::from_bytes(&read_stdin()?)).into_bytes()),
        ["replay", program] => {
            child::check(program)?;
            let trace = read_text()?;
            let printed = child::run(program, &trace.to_bytes())?;
            Ok(replay::columns(&trace, &String::from_utf8_lossy(&printed)).into_bytes())
        }
        _ => Err(USAGE.to_string()),
    }
}

fn read_stdin() -> Result<Vec<u8>, String> {
    let mut bytes = Vec::new();
    std::io::stdin().read_to_end(&mut bytes).map_err(|error| error.to_string())?;
    Ok(bytes)
}

fn read_text() -> Result<Trace, String> {
    let text = String::from_utf8(read_stdin()?).map_err(|error| error.to_string())?;
    text::parse(&text).map_err(|error| format!("line {}: {}", error.line, error.message))
}

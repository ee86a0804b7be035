//! What the comparing programs share: numbers among their arguments, and the
//! exit code.

use std::process::ExitCode;

/// Runs a comparison on the program's arguments. The exit code is 0 if it shows
/// what it should, 1 if not, and 2 with a message if it could not be made.
pub fn run(name: &str, compare: fn(&[String]) -> Result<bool, String>) -> ExitCode {
    let arguments: Vec<String> = std::env::args().skip(1).collect();
    match compare(&arguments) {
        Ok(true) => ExitCode::SUCCESS,
        Ok(false) => ExitCode::FAILURE,
        Err(message) => {
            eprintln!("{name}: {message}");
            ExitCode::from(2)
        }
    }
}

/// The number at a place, or `otherwise` past the last argument; none if the
/// word there is no number.
pub fn number(arguments: &[String], place: usize, otherwise: u64) -> Option<u64> {
    match arguments.get(place) {
        None => Some(otherwise),
        Some(word) => word.parse().ok(),
    }
}

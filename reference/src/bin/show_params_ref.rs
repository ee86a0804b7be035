//! Reads parameters from stdin and prints them, or their refusal.

use std::io::{Read, Write};

fn main() -> std::io::Result<()> {
    let mut bytes = Vec::new();
    std::io::stdin().read_to_end(&mut bytes)?;
    std::io::stdout().write_all(reference::params::show(&bytes).as_bytes())
}

//! Reads a save from stdin and prints it in words, or its refusal.

use std::io::{Read, Write};

fn main() -> std::io::Result<()> {
    let mut bytes = Vec::new();
    std::io::stdin().read_to_end(&mut bytes)?;
    std::io::stdout().write_all(reference::saves::show(&bytes).as_bytes())
}

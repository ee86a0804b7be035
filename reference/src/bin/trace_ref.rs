//! The trace program: stdin to stdout.

use reference::trace;
use std::io::{Read, Write};

fn main() -> std::io::Result<()> {
    let mut bytes = Vec::new();
    std::io::stdin().read_to_end(&mut bytes)?;
    std::io::stdout().write_all(trace::run(&bytes).as_bytes())
}

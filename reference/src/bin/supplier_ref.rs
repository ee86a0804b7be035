//! Reads a mode and then a sheet from stdin: `i` takes the other supplier's sheet and
//! prints our numbers, `e` takes our parameters and prints the supplier's entries; `I`
//! and `E` write them as bytes.

use std::io::{Read, Write};

fn main() -> std::io::Result<()> {
    let mut bytes = Vec::new();
    std::io::stdin().read_to_end(&mut bytes)?;
    let Some((&mode, rest)) = bytes.split_first() else { return Ok(()) };
    std::io::stdout().write_all(&reference::supplier::show(mode, rest))
}

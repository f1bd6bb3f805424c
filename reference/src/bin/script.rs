//! Reads a script from standard input and prints what it comes to, as `fibexp script` does.

use std::io::{self, Read, Write};

fn main() -> io::Result<()> {
    let mut input = Vec::new();
    io::stdin().read_to_end(&mut input)?;
    io::stdout().write_all(&reference::script::script(&input))
}

//! Prints a script of drawn calls, the same each time: what crates/compare has on standard input.

use std::io::{self, Write};

fn main() -> io::Result<()> {
    io::stdout().write_all(&reference::drawing::calls::script())
}

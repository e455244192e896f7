//! The replies to the journal on standard input, by the proved archive: what `tools/guard-test` holds the guard's answers to.

use std::io::{self, Read, Write};

fn main() -> io::Result<()> {
    let mut journal = Vec::new();
    io::stdin().read_to_end(&mut journal)?;
    io::stdout().write_all(gatekeeper::replay(&journal).as_bytes())
}

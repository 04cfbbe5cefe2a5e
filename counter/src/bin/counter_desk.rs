//! `stampdesk` on standard input and output, answered by the counter program.

use std::io::{Read, Write};

use counter::desk::{stampdesk, MOST_INPUT};

fn main() -> std::io::Result<()> {
    let mut input = Vec::new();
    // One byte more than is read tells too long an input apart.
    let most = MOST_INPUT as u64 + 1;
    std::io::stdin().take(most).read_to_end(&mut input)?;
    std::io::stdout().write_all(&stampdesk(&input))
}

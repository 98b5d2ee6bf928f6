//! Reads a key's four lines from standard input and prints its listing, as document 01's `keylist` does.

use std::io::{self, Read, Write};

fn main() -> io::Result<()> {
    let mut input = Vec::new();
    io::stdin().read_to_end(&mut input)?;
    io::stdout().write_all(&reference::keylist::listing(&input))
}

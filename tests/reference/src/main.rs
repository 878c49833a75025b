//! `reference`: reads a journal from standard input, prints its listing.

use std::io::{self, Read, Write};

fn main() -> io::Result<()> {
    let mut journal = Vec::new();
    io::stdin().lock().read_to_end(&mut journal)?;
    io::stdout().write_all(reference::listing::listing(&journal).text.as_bytes())
}

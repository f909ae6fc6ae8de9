//! Prints the listing of each sheet named, or of the one on standard input.

use reference::run::listing;
use std::io::{self, Read, Write};

fn main() -> io::Result<()> {
    let paths: Vec<String> = std::env::args().skip(1).collect();
    let mut out = io::stdout().lock();
    if paths.is_empty() {
        let mut sheet = Vec::new();
        io::stdin().read_to_end(&mut sheet)?;
        return out.write_all(listing(&sheet).as_bytes());
    }
    for path in paths {
        out.write_all(listing(&std::fs::read(path)?).as_bytes())?;
    }
    Ok(())
}

//! Prints the trace of each shift named, or of the one on standard input.

use reference::shift::trace;
use std::error::Error;
use std::io::{self, Read, Write};

fn main() -> Result<(), Box<dyn Error>> {
    let paths: Vec<String> = std::env::args().skip(1).collect();
    let mut out = io::stdout().lock();
    let mut texts = Vec::new();
    if paths.is_empty() {
        let mut text = String::new();
        io::stdin().read_to_string(&mut text)?;
        texts.push(text);
    }
    for path in paths {
        texts.push(std::fs::read_to_string(path)?);
    }
    for text in texts {
        let trace = trace(&text).ok_or("this is no shift")?;
        out.write_all(trace.as_bytes())?;
    }
    Ok(())
}

//! make_sheets [--shifts] SEED COUNT DIR: writes COUNT random run sheets into DIR, or shifts
//! with liars that speak.

use reference::generate::random_sheet;
use reference::liar::random_shift_text;
use reference::random::Random;
use std::error::Error;
use std::path::Path;

fn main() -> Result<(), Box<dyn Error>> {
    let mut arguments: Vec<String> = std::env::args().skip(1).collect();
    let shifts = arguments.first().is_some_and(|word| word == "--shifts");
    if shifts {
        arguments.remove(0);
    }
    let [seed, count, directory] = &arguments[..] else {
        return Err("usage: make_sheets [--shifts] SEED COUNT DIR".into());
    };
    let seed: u64 = seed.parse()?;
    let count: u64 = count.parse()?;
    std::fs::create_dir_all(directory)?;
    for index in 0..count {
        // Each file has a seed of its own, so that one can be made again alone.
        let mut random = Random::new(seed.wrapping_mul(1_000_003).wrapping_add(index));
        let (text, extension) = if shifts {
            (random_shift_text(&mut random).into_bytes(), "shift")
        } else {
            (random_sheet(&mut random), "sheet")
        };
        let name = format!("{seed}-{index:05}.{extension}");
        std::fs::write(Path::new(directory).join(name), text)?;
    }
    Ok(())
}

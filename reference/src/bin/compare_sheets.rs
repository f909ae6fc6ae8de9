//! compare_sheets [--shifts] [--stdin | --batch K] PROGRAM DIR...
//!
//! Runs PROGRAM on every `.sheet` file of the directories and compares what it prints with the
//! reference's listing, byte for byte; a `.listing` file beside a sheet is compared too.
//! The program gets the sheet's path as its argument, or the sheet on standard input, or with
//! `--batch` up to K paths at once, whose listings it prints one after another. With `--shifts`
//! it is run on every `.shift` file, and the traces are compared.
//! The exit status is 0 only if there was something to compare and all was equal.

use reference::run::listing;
use reference::shift::trace;
use std::error::Error;
use std::fs::File;
use std::path::{Path, PathBuf};
use std::process::{Command, ExitCode, Stdio};

type Failure = Box<dyn Error>;

enum Manner {
    Stdin,
    /// So many paths as arguments.
    Paths(usize),
}

struct Comparison {
    shifts: bool,
    manner: Manner,
    program: String,
    directories: Vec<String>,
}

/// A place where two listings part.
struct Difference {
    sheet: PathBuf,
    line: usize,
    expected: String,
    found: String,
}

fn arguments() -> Result<Comparison, Failure> {
    let mut words: Vec<String> = std::env::args().skip(1).collect();
    let shifts = words.first().is_some_and(|word| word == "--shifts");
    if shifts {
        words.remove(0);
    }
    let manner = match words.first().map(String::as_str) {
        Some("--stdin") => {
            words.remove(0);
            Manner::Stdin
        }
        Some("--batch") if words.len() > 1 => {
            let count: usize = words[1].parse()?;
            words.drain(..2);
            Manner::Paths(count.max(1))
        }
        _ => Manner::Paths(1),
    };
    if words.len() < 2 {
        return Err("usage: compare_sheets [--shifts] [--stdin | --batch K] PROGRAM DIR...".into());
    }
    let program = words.remove(0);
    Ok(Comparison { shifts, manner, program, directories: words })
}

fn files(comparison: &Comparison) -> Result<Vec<PathBuf>, Failure> {
    let wanted = if comparison.shifts { "shift" } else { "sheet" };
    let mut paths = Vec::new();
    for directory in &comparison.directories {
        for entry in std::fs::read_dir(directory)? {
            let path = entry?.path();
            if path.extension().is_some_and(|extension| extension == wanted) {
                paths.push(path);
            }
        }
    }
    paths.sort();
    Ok(paths)
}

/// What the reference prints for a file.
fn expected(comparison: &Comparison, path: &Path) -> Result<String, Failure> {
    if comparison.shifts {
        trace(&std::fs::read_to_string(path)?).ok_or(format!("{}: no shift", path.display()).into())
    } else {
        Ok(listing(&std::fs::read(path)?))
    }
}

/// What the program prints; the exit status is its own affair, but it must exit.
fn output(comparison: &Comparison, paths: &[PathBuf]) -> Result<Vec<u8>, Failure> {
    let mut command = Command::new(&comparison.program);
    match comparison.manner {
        Manner::Stdin => command.stdin(File::open(&paths[0])?),
        Manner::Paths(_) => command.args(paths).stdin(Stdio::null()),
    };
    let output = command.stderr(Stdio::inherit()).output()?;
    if output.status.code().is_none() {
        return Err(format!("{} was killed: {}", paths[0].display(), output.status).into());
    }
    Ok(output.stdout)
}

/// The first difference between the listings of some sheets and what was printed for them.
fn difference(listings: &[(&Path, String)], printed: &[u8]) -> Option<Difference> {
    let mut rest = printed;
    for (index, (sheet, expected)) in listings.iter().enumerate() {
        let last = index + 1 == listings.len();
        if rest.starts_with(expected.as_bytes()) && (!last || rest.len() == expected.len()) {
            rest = &rest[expected.len()..];
            continue;
        }
        let found = String::from_utf8_lossy(rest);
        let equal_lines =
            expected.lines().zip(found.lines()).take_while(|(left, right)| left == right).count();
        let line_of = |text: &str| text.lines().nth(equal_lines).unwrap_or("(end)").to_string();
        return Some(Difference {
            sheet: sheet.to_path_buf(),
            line: equal_lines + 1,
            expected: line_of(expected),
            found: line_of(&found),
        });
    }
    None
}

/// Compares one group of sheets, and their stored listings where there are any.
fn compare(comparison: &Comparison, paths: &[PathBuf]) -> Result<Option<Difference>, Failure> {
    let mut listings = Vec::new();
    for path in paths {
        let expected = expected(comparison, path)?;
        let stored = path.with_extension("listing");
        if stored.exists() {
            let stored = std::fs::read(stored)?;
            if let Some(found) = difference(&[(path.as_path(), expected.clone())], &stored) {
                eprintln!("the stored listing differs from the reference's:");
                return Ok(Some(found));
            }
        }
        listings.push((path.as_path(), expected));
    }
    let printed = output(comparison, paths)?;
    Ok(difference(&listings, &printed))
}

fn run() -> Result<bool, Failure> {
    let comparison = arguments()?;
    let paths = files(&comparison)?;
    let group = match comparison.manner {
        Manner::Stdin => 1,
        Manner::Paths(count) => count,
    };
    for group in paths.chunks(group) {
        if let Some(found) = compare(&comparison, group)? {
            println!("{}: line {} of the listing", found.sheet.display(), found.line);
            println!("expected: {}", found.expected);
            println!("found:    {}", found.found);
            return Ok(false);
        }
    }
    let what = if comparison.shifts { "shifts" } else { "sheets" };
    println!("{} {what}, all equal", paths.len());
    Ok(!paths.is_empty())
}

fn main() -> ExitCode {
    match run() {
        Ok(true) => ExitCode::SUCCESS,
        Ok(false) => ExitCode::FAILURE,
        Err(failure) => {
            eprintln!("{failure}");
            ExitCode::FAILURE
        }
    }
}

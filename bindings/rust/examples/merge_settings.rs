//! Merges three versions of a list of settings, lines of the form key=value, by key: `merge_settings OURS BASE THEIRS`. Sides that made the same change
//! resolve to it; a conflict is printed with its sides, and makes the status 1.
use jj_core_verified::{resolve, Joined};
use std::error::Error;
use std::process::ExitCode;

fn key(line: &str) -> &str {
    line.split('=').next().unwrap_or_default()
}

fn main() -> Result<ExitCode, Box<dyn Error>> {
    let paths: Vec<String> = std::env::args().skip(1).collect();
    if paths.len() != 3 {
        return Err("usage: merge_settings OURS BASE THEIRS".into());
    }
    let files = paths.iter().map(std::fs::read_to_string).collect::<Result<Vec<_>, _>>()?;
    let sides: Vec<Vec<&str>> = files.iter().map(|file| file.lines().collect()).collect();
    let mut keys: Vec<&str> = Vec::new();
    for line in sides.iter().flatten() {
        if !keys.contains(&key(line)) {
            keys.push(key(line));
        }
    }
    let mut status = ExitCode::SUCCESS;
    for wanted in keys {
        // The line of each side that has this key; the empty string if it has none.
        let terms: Vec<&str> = sides.iter().map(|side| side.iter().find(|line| key(line) == wanted).copied().unwrap_or("")).collect();
        match resolve(&Joined::new(&terms), true)? {
            Some(which) if terms[which].is_empty() => {}
            Some(which) => println!("{}", terms[which]),
            None => {
                println!("conflict: {}", terms.join(" | "));
                status = ExitCode::from(1);
            }
        }
    }
    Ok(status)
}

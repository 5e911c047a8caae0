//! Prints the paths of standard input, each ended by NUL, that are in a file set: `git ls-files -z | select_files 'src ~ src/tests'`.
use jj_core_verified::{fileset_matches, Joined};
use std::error::Error;
use std::io::{Read, Write};

fn main() -> Result<(), Box<dyn Error>> {
    let expression = std::env::args().nth(1).ok_or("usage: select_files EXPRESSION < paths")?;
    let mut input = Vec::new();
    std::io::stdin().read_to_end(&mut input)?;
    let paths: Joined = input.split_inclusive(|byte| *byte == 0).map(|path| &path[..path.len() - 1]).collect();
    let in_set = fileset_matches(&expression, &paths)?;
    let mut output = std::io::stdout().lock();
    for path in paths.select(&in_set) {
        output.write_all(path)?;
        output.write_all(b"\n")?;
    }
    Ok(())
}

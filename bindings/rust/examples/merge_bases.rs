//! Prints the merge bases of two commits of a log: `git log --all --format='%H %P' | merge_bases LEFT RIGHT`.
use jj_core_verified::{closest_common, Graph};
use std::collections::HashMap;
use std::error::Error;

fn main() -> Result<(), Box<dyn Error>> {
    let names: Vec<String> = std::env::args().skip(1).collect();
    let [left, right] = names.as_slice() else { return Err("usage: merge_bases LEFT RIGHT < log".into()) };
    let log = std::io::read_to_string(std::io::stdin())?;
    let commits: Vec<Vec<&str>> = log.lines().map(|line| line.split(' ').filter(|it| !it.is_empty()).collect()).collect();
    let mut sorted: Vec<&Vec<&str>> = commits.iter().filter(|commit| !commit.is_empty()).collect();
    sorted.sort();
    let numbers: HashMap<&str, usize> = sorted.iter().enumerate().map(|(number, commit)| (commit[0], number)).collect();
    // A parent that the log does not have, as of a shallow clone, is left out.
    let parents = |commit: &Vec<&str>| commit[1..].iter().filter_map(|parent| numbers.get(parent).copied()).collect::<Vec<_>>();
    let graph: Graph = sorted.iter().map(|commit| parents(commit)).collect();
    let number = |name: &String| numbers.get(name.as_str()).copied().ok_or(format!("merge_bases: the log does not have {name}"));
    for base in closest_common(&graph, &[number(left)?], &[number(right)?])? {
        println!("{}", sorted[base][0]);
    }
    Ok(())
}

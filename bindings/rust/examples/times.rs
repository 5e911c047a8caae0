//! Prints how long calls take, in nanoseconds.
use jj_core_verified::{content_hash, content_hash_list, glob_matches, hash, heads, hex_encode, order, resolve, simplify, walk, Graph, Hasher, Joined};
use std::hint::black_box;
use std::time::Instant;

fn time<T>(name: &str, repeats: u32, mut call: impl FnMut() -> T) {
    let begun = Instant::now();
    (0..repeats).for_each(|_| {
        black_box(call());
    });
    println!("{name:38} {:>12} ns", begun.elapsed().as_nanos() / u128::from(repeats));
}

fn main() -> Result<(), jj_core_verified::Error> {
    let big = vec![7u8; 1 << 20];
    let paths = Joined::new(&(0..1000).map(|n| format!("src/a{n}/b.rs")).collect::<Vec<_>>());
    let chain = Graph::new(&(0..1000usize).map(|n| if n == 0 { vec![] } else { vec![n - 1] }).collect::<Vec<_>>());
    let nodes = (0..1000).collect::<Vec<_>>();
    time("hash, 16 bytes", 200_000, || hash(&big[..16]));
    time("hash, 1 MiB", 50, || hash(&big));
    time("hash, 1 MiB in pieces of 4 KiB", 50, || {
        let mut hasher = Hasher::new();
        big.chunks(1 << 12).for_each(|piece| hasher.update(piece));
        hasher.finish()
    });
    time("content hash, 16 bytes", 200_000, || content_hash(&big[..16]));
    time("content hash, 1000 strings", 1000, || content_hash_list(&paths));
    time("hex, 64 bytes", 200_000, || hex_encode(&big[..64], false));
    time("glob, parsed and matched once", 50_000, || glob_matches("src/**/*.rs", true, false, &Joined::new(&["src/a/b.rs"])));
    time("glob, matched against 1000 paths", 500, || glob_matches("src/**/*.rs", true, false, &paths));
    time("walk of 1000 paths, by one prefix", 500, || walk(&Joined::new(&["src/a7"]), true, &paths));
    time("simplify, 5 terms", 200_000, || simplify(&Joined::new(&["a", "b", "b", "c", "a"])));
    time("resolve, 3 terms", 200_000, || resolve(&Joined::new(&["a", "a", "b"]), false));
    time("order, chain of 1000 nodes", 200, || order(&chain, &nodes));
    time("heads, chain of 1000 nodes", 200, || heads(&chain, &nodes));
    Ok(())
}

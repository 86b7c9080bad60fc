//! The hash listing written a second time, for comparison: plain Rust with 128-bit arithmetic, and nothing of the
//! proved code in it.
//!
//!   peer assemble FILE    the bytes that a readable file of records stands for
//!   peer listing          the listing of standard input
//!   peer records SEED     some records by chance, good and damaged

use std::io::{self, Read, Write};

mod chance;
mod hash;
mod listing;
mod records;

fn main() -> io::Result<()> {
    let words: Vec<String> = std::env::args().skip(1).collect();
    let words: Vec<&str> = words.iter().map(String::as_str).collect();
    let mut out = io::stdout().lock();
    match words[..] {
        ["assemble", file] => out.write_all(&records::assemble(&std::fs::read_to_string(file)?)),
        ["listing"] => {
            let mut input = Vec::new();
            io::stdin().take(65_536).read_to_end(&mut input)?;
            out.write_all(listing::listing(&input).as_bytes())
        }
        ["records", seed] => {
            let seed = seed.parse().map_err(io::Error::other)?;
            out.write_all(&records::by_chance(seed))
        }
        _ => Err(io::Error::other("peer assemble FILE | listing | records SEED")),
    }
}

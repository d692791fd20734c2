//! Prints seeded jobs as lines of hexadecimal bytes: `jobs SEED COUNT`.

use std::io::{self, Write};
use turning::jobs::{some_job, Chance};

fn main() -> io::Result<()> {
    let numbers: Vec<u64> = std::env::args().skip(1).filter_map(|word| word.parse().ok()).collect();
    let [seed, count] = numbers[..] else {
        return Err(io::Error::new(io::ErrorKind::InvalidInput, "usage: jobs SEED COUNT"));
    };
    let mut chance = Chance::new(seed);
    let mut out = io::BufWriter::new(io::stdout().lock());
    for _ in 0..count {
        writeln!(out, "{}", turning::hex_of_bytes(&some_job(&mut chance)))?;
    }
    out.flush()
}

//! Reads lines of hexadecimal bytes (`-` for none) and prints for each what the program `sweep` prints.

use std::io::{self, BufRead, Write};

fn main() -> io::Result<()> {
    let mut out = io::BufWriter::new(io::stdout().lock());
    for line in io::stdin().lock().lines() {
        let line = line?;
        match turning::bytes_of_hex(line.trim()) {
            Some(bytes) => write!(out, "{}", turning::reference::sweep(&bytes))?,
            None => return Err(io::Error::new(io::ErrorKind::InvalidData, format!("no hexadecimal bytes: {line}"))),
        }
    }
    out.flush()
}

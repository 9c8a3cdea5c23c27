//! Reads texts by `serde_json`, each a line of standard input in hexadecimal digits, and prints what each is as JSON, or that it is none.

use serde_json::Value;
use std::io::{self, BufRead, Write};

fn bytes_of(line: &str) -> Vec<u8> {
    (0..line.len() / 2).map(|at| u8::from_str_radix(&line[2 * at..2 * at + 2], 16).expect("hexadecimal digits")).collect()
}

fn main() -> io::Result<()> {
    let mut out = io::BufWriter::new(io::stdout().lock());
    for line in io::stdin().lock().lines() {
        match serde_json::from_slice::<Value>(&bytes_of(&line?)) {
            Ok(value) => writeln!(out, "{value}")?,
            Err(_) => writeln!(out, "no JSON")?,
        }
    }
    Ok(())
}

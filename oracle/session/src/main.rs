//! Runs a session over the Rust original: one call a line on standard input, an answer a line on standard output.
//!
//!     oracle [--raw] < NAME.in
//!
//! Refusals that the original does not know (1, 2 and 3) are given by the requirements' rules, and what a client value drops
//! becomes zeros; with `--raw` the original is left to itself.

use session::Session;
use std::io::{self, BufRead, BufWriter, Write};

fn main() -> io::Result<()> {
    let mut session = Session::new(std::env::args().any(|word| word == "--raw"));
    let mut out = BufWriter::new(io::stdout().lock());
    for line in io::stdin().lock().lines() {
        let line = line?;
        if line.is_empty() || line.starts_with('#') {
            writeln!(out, "{line}")?;
        } else {
            let answer = session.line(&line).unwrap_or_else(|| "?".to_string());
            writeln!(out, "{answer}")?;
        }
    }
    out.flush()
}

//! counter <QUESTION: reads a medium's file name, lowest, count and, if given, the part in hand, a line each, and prints the
//! cell to order and what the part in hand is. The file itself is not changed.

use second::counter;
use std::io::{stdin, stdout, Read, Write};

fn main() -> std::io::Result<()> {
    let mut input = Vec::new();
    stdin().read_to_end(&mut input)?;
    stdout().write_all(counter::text(&input).as_bytes())
}

//! why <QUESTION: reads a medium's file name and a cell number, a line each, and prints what the recovered cell says and why.
//! The file itself is not changed.

use second::why;
use std::io::{stdin, stdout, Read, Write};

fn main() -> std::io::Result<()> {
    let mut input = Vec::new();
    stdin().read_to_end(&mut input)?;
    stdout().write_all(why::text(&input).as_bytes())
}

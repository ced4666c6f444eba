//! month <NAMES: reads the file names of media, one a line, and prints the counts of their recovered tables' releases. The
//! files themselves are not changed.

use second::month;
use std::io::{stdin, stdout, Read, Write};

fn main() -> std::io::Result<()> {
    let mut input = Vec::new();
    stdin().read_to_end(&mut input)?;
    stdout().write_all(month::text(&input).as_bytes())
}

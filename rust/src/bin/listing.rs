//! listing <MEDIUM: prints the recovered table of the medium on standard input; the input itself is not changed.

use second::{fault::Fault, keeper, listing};
use std::io::{stdin, stdout, Read, Write};

fn main() -> std::io::Result<()> {
    let mut image = Vec::with_capacity(listing::IMAGE);
    stdin().take(listing::IMAGE as u64).read_to_end(&mut image)?;
    let text = listing::text(keeper::second(Fault::None), &mut image);
    stdout().write_all(text.as_bytes())
}

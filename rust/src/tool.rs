//! What the tools over media share: the lines of standard input, a file's bytes, and a medium recovered in memory.

use crate::fault::Fault;
use crate::keeper;
use crate::layout::{table, word4, Fitment};
use crate::listing::{recover, IMAGE};
use crate::second::{Refusal, NO_SUCH_CELL, OUT_OF_RULE};
use std::ffi::OsStr;
use std::fs::File;
use std::io::Read;
use std::os::unix::ffi::OsStrExt;

/// The lines, each without the LF or CR LF that ends it; the last one needs no LF.
pub fn lines(input: &[u8]) -> impl Iterator<Item = &[u8]> {
    input.split_inclusive(|&byte| byte == b'\n').map(|line| match line.strip_suffix(b"\n") {
        Some(line) => line.strip_suffix(b"\r").unwrap_or(line),
        None => line,
    })
}

/// A line as a number: decimal digits and nothing else, up to 64 bits. Refused where it is none, or where there is no line.
pub fn number(line: Option<&[u8]>) -> Result<u64, Refusal> {
    let digits = line.filter(|line| !line.is_empty()).ok_or(NO_SUCH_CELL)?;
    let next = |number: u64, byte: &u8| {
        let digit = byte.is_ascii_digit().then(|| u64::from(byte - b'0'))?;
        number.checked_mul(10)?.checked_add(digit)
    };
    digits.iter().try_fold(0, next).ok_or(NO_SUCH_CELL)
}

/// The file's bytes, at most one more than the largest medium has. Refused where it can't be read, or where none is named.
pub fn file(name: Option<&[u8]>) -> Result<Vec<u8>, Refusal> {
    let name = OsStr::from_bytes(name.ok_or(OUT_OF_RULE)?);
    let mut image = Vec::with_capacity(IMAGE);
    let read = File::open(name).and_then(|file| file.take(IMAGE as u64).read_to_end(&mut image));
    read.map_err(|_| OUT_OF_RULE)?;
    Ok(image)
}

/// The medium as it is when its recovery has ended.
pub fn recovered(medium: &[u8]) -> Result<Vec<u8>, Refusal> {
    let mut medium = medium.to_vec();
    recover(keeper::second(Fault::None), &mut medium)?;
    Ok(medium)
}

/// What the cells of a medium in rule hold, by rising number.
pub fn fitments(medium: &[u8]) -> impl Iterator<Item = Option<Fitment>> + '_ {
    table(medium, word4(medium, 4)).iter().map(|bytes| Fitment::of(u64::from_le_bytes(*bytes)))
}

/// What a tool over one medium prints.
pub fn said(answer: Result<String, Refusal>) -> String {
    answer.unwrap_or_else(|refusal| format!("refused={refusal}\n"))
}

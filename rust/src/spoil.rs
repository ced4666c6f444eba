//! Rows that are wrong in a given way.

use crate::layout::{number_in, write_row, Entry, Flaw, Row, M, ROW};

/// What can be wrong with a row of 32 bytes, in the order in which it is judged.
pub const FLAWS: [Flaw; 8] = [
    Flaw::OtherNumber,
    Flaw::UnknownKind,
    Flaw::FillerNotZero,
    Flaw::CellOutOfRange,
    Flaw::CellLeft,
    Flaw::OldLeft,
    Flaw::NewLeft,
    Flaw::NotAnUpdate,
];

/// An update that changes nothing, so that it can be given flaws one by one.
pub fn plain_row(number: u32) -> Row {
    let mut row = [0; ROW];
    write_row(&mut row, number, Entry::Update { cell: 0, old: 0, new: 0 });
    row
}

/// Gives a row a flaw, in a way that `salt` chooses. It keeps those that are judged later: of several flaws the last one goes in
/// first. On a table of one cell a cell left in an end entry is out of range.
pub fn spoil(row: &mut Row, flaw: Flaw, cells: u32, salt: u64) {
    let pick = |from: &[u8]| from[salt as usize % from.len()];
    match flaw {
        Flaw::TooShort | Flaw::Hole => {}
        Flaw::OtherNumber if salt.is_multiple_of(4) => row[..4].fill(0),
        Flaw::OtherNumber => {
            let other = number_in(row).wrapping_add([1, 256, M][salt as usize % 3]);
            row[..4].copy_from_slice(&other.to_le_bytes());
        }
        Flaw::UnknownKind => row[4] = pick(&[0, 4, 5, 255]),
        Flaw::FillerNotZero => row[pick(&[5, 6, 7, 12, 13, 14, 15]) as usize] = 1 << (salt % 8),
        Flaw::CellOutOfRange => {
            let cell = if salt.is_multiple_of(4) { M } else { cells + salt as u32 % 2 };
            row[8..12].copy_from_slice(&cell.to_le_bytes());
        }
        Flaw::CellLeft | Flaw::OldLeft | Flaw::NewLeft => {
            let at = [8, 16, 24][flaw as usize - Flaw::CellLeft as usize];
            (row[4], row[at]) = (pick(&[2, 3]), 1);
        }
        Flaw::NotAnUpdate => {
            row[4] = pick(&[2, 3]);
            row[8..].fill(0);
        }
    }
}

/// The plain row of entry `number` with two flaws, which may be the same.
pub fn spoiled(number: u32, flaws: [Flaw; 2], cells: u32, salt: u64) -> Row {
    let mut row = plain_row(number);
    spoil(&mut row, flaws[0].max(flaws[1]), cells, salt);
    spoil(&mut row, flaws[0].min(flaws[1]), cells, salt);
    row
}

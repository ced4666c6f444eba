//! The medium. N is the number of cells, C the number of journal rows ("slots"); numbers are little-endian.
//!
//! | offset | bytes | what |
//! |---|---|---|
//! | 0 | 4 | N, 1 to 1,024 |
//! | 4 | 4 | C, 4 to 1,024 |
//! | 8 | 4 | h, the last entry number dropped |
//! | 12 | 20 | zero |
//! | 32 | 32 C | the rows; entry n, from 1 on, has row (n-1) mod C |
//! | 32 + 32 C | 8 N | the table; a cell is part number (4), release major (2), minor (2) |
//!
//! | offset in a row | bytes | what |
//! |---|---|---|
//! | 0 | 4 | number |
//! | 4 | 1 | kind: 1 update, 2 commit, 3 abort |
//! | 5 | 3 | zero |
//! | 8 | 4 | cell, zero for kinds 2 and 3 |
//! | 12 | 4 | zero |
//! | 16 | 8 | old value, zero for kinds 2 and 3 |
//! | 24 | 8 | new value, zero for kinds 2 and 3 |
//!
//! The waiting rows, in memory, are placed as the rows on the medium.

use std::fmt;

/// The largest entry number.
pub const M: u32 = u32::MAX;
pub const HEAD: usize = 32;
pub const ROW: usize = 32;
pub const CELL: usize = 8;
pub const MOST_CELLS: u32 = 1024;
pub const LEAST_SLOTS: u32 = 4;
pub const MOST_SLOTS: u32 = 1024;
/// The length of the largest medium.
pub const LARGEST: usize = HEAD + ROW * MOST_SLOTS as usize + CELL * MOST_CELLS as usize;

pub type Row = [u8; ROW];
pub type Cell = [u8; CELL];

#[inline]
pub fn sizes_in_rule(cells: u32, slots: u32) -> bool {
    (1..=MOST_CELLS).contains(&cells) && (LEAST_SLOTS..=MOST_SLOTS).contains(&slots)
}

/// The medium's length for sizes in rule.
#[inline]
pub fn medium_len(cells: u32, slots: u32) -> usize {
    table_at(slots) + CELL * cells as usize
}

/// Where the table begins.
#[inline]
pub fn table_at(slots: u32) -> usize {
    HEAD + ROW * slots as usize
}

/// The slot of entry `number`, which is not 0.
#[inline]
pub fn slot_of(number: u32, slots: u32) -> usize {
    ((number - 1) % slots) as usize
}

/// The rows of a medium of the right length.
#[inline]
pub fn rows(medium: &[u8], slots: u32) -> &[Row] {
    medium[HEAD..table_at(slots)].as_chunks().0
}

/// The table of a medium of the right length.
#[inline]
pub fn table(medium: &[u8], slots: u32) -> &[Cell] {
    medium[table_at(slots)..].as_chunks().0
}

#[inline]
pub fn store_row(medium: &mut [u8], slot: usize, row: &Row) {
    let at = HEAD + ROW * slot;
    medium[at..at + ROW].copy_from_slice(row);
}

#[inline]
pub fn store_cell(medium: &mut [u8], slots: u32, cell: usize, value: u64) {
    let at = table_at(slots) + CELL * cell;
    medium[at..at + CELL].copy_from_slice(&value.to_le_bytes());
}

#[inline]
pub fn word4(bytes: &[u8], at: usize) -> u32 {
    u32::from_le_bytes(bytes[at..at + 4].try_into().unwrap())
}

#[inline]
pub fn word8(bytes: &[u8], at: usize) -> u64 {
    u64::from_le_bytes(bytes[at..at + 8].try_into().unwrap())
}

/// Releases compare as numbers, major before minor.
#[derive(Clone, Copy, Debug, PartialEq, Eq, PartialOrd, Ord)]
pub struct Release {
    pub major: u16,
    pub minor: u16,
}

impl fmt::Display for Release {
    fn fmt(&self, out: &mut fmt::Formatter) -> fmt::Result {
        write!(out, "{}.{}", self.major, self.minor)
    }
}

/// What a cell that is not empty holds.
#[derive(Clone, Copy, Debug, PartialEq, Eq)]
pub struct Fitment {
    pub part: u32,
    pub release: Release,
}

impl Fitment {
    /// A cell's value taken apart; none of an empty cell.
    pub fn of(value: u64) -> Option<Fitment> {
        let release = Release { major: (value >> 32) as u16, minor: (value >> 48) as u16 };
        (value != 0).then_some(Fitment { part: value as u32, release })
    }
}

#[derive(Clone, Copy, Debug, PartialEq, Eq)]
pub struct Head {
    pub cells: u32,
    pub slots: u32,
    pub h: u32,
}

impl Head {
    /// The head of a medium whose head is in rule and whose length is as it says.
    #[inline(always)]
    pub fn of(medium: &[u8]) -> Option<Head> {
        let bytes = medium.get(..HEAD)?;
        let head = Head { cells: word4(bytes, 0), slots: word4(bytes, 4), h: word4(bytes, 8) };
        let in_rule = sizes_in_rule(head.cells, head.slots)
            && bytes[12..] == [0; HEAD - 12]
            && medium.len() == medium_len(head.cells, head.slots);
        in_rule.then_some(head)
    }

    /// Stores all 32 bytes.
    #[inline]
    pub fn store(self, medium: &mut [u8]) {
        let mut bytes = [0; HEAD];
        bytes[0..4].copy_from_slice(&self.cells.to_le_bytes());
        bytes[4..8].copy_from_slice(&self.slots.to_le_bytes());
        bytes[8..12].copy_from_slice(&self.h.to_le_bytes());
        medium[..HEAD].copy_from_slice(&bytes);
    }
}

/// What a row says.
#[derive(Clone, Copy, Debug, PartialEq, Eq)]
pub enum Entry {
    Update { cell: u32, old: u64, new: u64 },
    Commit,
    Abort,
}

/// The first thing wrong with a row, in the order in which a row is judged, and with the header's numbers.
#[derive(Clone, Copy, Debug, PartialEq, Eq, PartialOrd, Ord)]
#[repr(u32)]
pub enum Flaw {
    TooShort = 1,
    /// An expected number 0 counts as this too.
    OtherNumber,
    UnknownKind,
    FillerNotZero,
    /// Of commits and aborts too.
    CellOutOfRange,
    CellLeft,
    OldLeft,
    NewLeft,
    /// Of a row that reads as a commit or abort, where an update is needed.
    NotAnUpdate,
    /// Of a row of the stored journal that does not hold its number, where a later one does.
    Hole,
}

/// The flaws in words, by number.
pub const REASONS: [&str; 11] = [
    "none",
    "too short",
    "other number",
    "unknown kind",
    "filler not zero",
    "cell out of range",
    "cell left in an end entry",
    "old left in an end entry",
    "new left in an end entry",
    "not an update",
    "hole",
];

/// The number that a row holds, whatever the rest of it says.
#[inline]
pub fn number_in(row: &Row) -> u32 {
    word4(row, 0)
}

/// Reads the first 32 bytes as entry `number` of a medium with `cells` cells. What is wrong with them is looked for only
/// where they read as nothing.
#[inline(always)]
pub fn read_row(row: &[u8], cells: u32, number: u32) -> Result<Entry, Flaw> {
    let row: &Row = row.first_chunk().ok_or(Flaw::TooShort)?;
    entry_in(row, cells, number).ok_or_else(|| flaw_in(row, cells, number))
}

#[inline(always)]
fn entry_in(row: &Row, cells: u32, number: u32) -> Option<Entry> {
    if number == 0 || number_in(row) != number {
        return None;
    }
    // Kind and cell are read with the zero bytes after them.
    let (kind, cell) = (word4(row, 4), word8(row, 8));
    let (old, new) = (word8(row, 16), word8(row, 24));
    if cell >= cells as u64 {
        return None;
    }
    match kind {
        1 => Some(Entry::Update { cell: cell as u32, old, new }),
        2 | 3 if cell | old | new != 0 => None,
        2 => Some(Entry::Commit),
        3 => Some(Entry::Abort),
        _ => None,
    }
}

/// The first thing wrong with a row that reads as nothing.
#[cold]
#[inline(never)]
fn flaw_in(row: &Row, cells: u32, number: u32) -> Flaw {
    let (kind, cell) = (row[4], word4(row, 8));
    if number == 0 || number_in(row) != number {
        Flaw::OtherNumber
    } else if !(1..=3).contains(&kind) {
        Flaw::UnknownKind
    } else if row[5..8] != [0; 3] || row[12..16] != [0; 4] {
        Flaw::FillerNotZero
    } else if cell >= cells {
        Flaw::CellOutOfRange
    } else if cell != 0 {
        Flaw::CellLeft
    } else if word8(row, 16) != 0 {
        Flaw::OldLeft
    } else {
        Flaw::NewLeft
    }
}

/// The row of entry `number`.
#[inline]
pub fn write_row(row: &mut Row, number: u32, entry: Entry) {
    let (kind, cell, old, new) = match entry {
        Entry::Update { cell, old, new } => (1u32, cell, old, new),
        Entry::Commit => (2, 0, 0, 0),
        Entry::Abort => (3, 0, 0, 0),
    };
    row[0..4].copy_from_slice(&number.to_le_bytes());
    row[4..8].copy_from_slice(&kind.to_le_bytes());
    row[8..16].copy_from_slice(&(cell as u64).to_le_bytes());
    row[16..24].copy_from_slice(&old.to_le_bytes());
    row[24..32].copy_from_slice(&new.to_le_bytes());
}

//! Why a cell says what it says (ticket 3): the value that recovery leaves in it, and the entry that decided it.

use crate::layout::{read_row, rows, slot_of, Entry, Head, M};
use crate::second::{Refusal, NO_SUCH_CELL, OUT_OF_RULE};
use crate::tool;

#[derive(Clone, Copy, Debug, PartialEq, Eq)]
pub enum Reason {
    /// No stored entry names the cell.
    Table,
    /// The last transaction that updates the cell was committed.
    Written,
    /// That transaction was aborted or is unfinished.
    Restored,
}

impl Reason {
    fn word(self) -> &'static str {
        match self {
            Reason::Table => "table",
            Reason::Written => "written",
            Reason::Restored => "restored",
        }
    }
}

#[derive(Clone, Copy, Debug, PartialEq, Eq)]
pub struct Decision {
    pub reason: Reason,
    /// Written: the transaction's last update of the cell; restored: its first one; else 0.
    pub entry: u32,
    /// The number of the transaction's commit or abort, 0 where it has none.
    pub end: u32,
}

/// Walks the stored entries of a medium, from h+1 on.
pub struct Walker<'a> {
    medium: &'a [u8],
    head: Head,
    /// The last entry walked over.
    at: u32,
}

impl Walker<'_> {
    /// None of a medium whose head is out of rule.
    pub fn new(medium: &[u8]) -> Option<Walker<'_>> {
        let head = Head::of(medium)?;
        Some(Walker { medium, head, at: head.h })
    }
}

impl Iterator for Walker<'_> {
    type Item = (u32, Entry);

    fn next(&mut self) -> Option<(u32, Entry)> {
        let Head { cells, slots, h } = self.head;
        if self.at - h == slots || self.at == M {
            return None;
        }
        let number = self.at + 1;
        let entry = read_row(&rows(self.medium, slots)[slot_of(number, slots)], cells, number).ok()?;
        self.at = number;
        Some((number, entry))
    }
}

/// What decided the cell among the entries of a walk: the last transaction that updates it.
pub fn decision(walker: Walker, cell: u32) -> Decision {
    let mut decided = Decision { reason: Reason::Table, entry: 0, end: 0 };
    // The first and the last update of the cell in the transaction that the walk is in.
    let mut updates: Option<(u32, u32)> = None;
    for (number, entry) in walker {
        match entry {
            Entry::Update { cell: named, .. } if named == cell => {
                updates = Some((updates.map_or(number, |(first, _)| first), number));
            }
            Entry::Update { .. } => {}
            Entry::Commit => {
                if let Some((_, last)) = updates.take() {
                    decided = Decision { reason: Reason::Written, entry: last, end: number };
                }
            }
            Entry::Abort => {
                if let Some((first, _)) = updates.take() {
                    decided = Decision { reason: Reason::Restored, entry: first, end: number };
                }
            }
        }
    }
    updates.map_or(decided, |(first, _)| Decision { reason: Reason::Restored, entry: first, end: 0 })
}

/// The answer to a file name and a cell number, a line each.
pub fn text(input: &[u8]) -> String {
    tool::said(answer(input))
}

fn answer(input: &[u8]) -> Result<String, Refusal> {
    let mut lines = tool::lines(input);
    let medium = tool::file(lines.next())?;
    let walker = Walker::new(&medium).ok_or(OUT_OF_RULE)?;
    let cell = tool::number(lines.next())?;
    // 4 goes before recovery's 2.
    if cell >= u64::from(walker.head.cells) {
        return Err(NO_SUCH_CELL);
    }
    let recovered = tool::recovered(&medium)?;
    let value = match tool::fitments(&recovered).nth(cell as usize).flatten() {
        Some(fitment) => format!("{}:{}", fitment.part, fitment.release),
        None => "empty".to_string(),
    };
    let Decision { reason, entry, end } = decision(walker, cell as u32);
    Ok(format!("cell={cell}\nvalue={value}\nreason={}\nentry={entry}\nend={end}\n", reason.word()))
}

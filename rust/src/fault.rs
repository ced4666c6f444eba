//! Document 01's "Ways it has gone wrong", ways to name a bad row wrongly, ways to miss a hole in the journal or to see one
//! where none is, and ways to commit wrongly, each to be put into the second program alone. The comparison must find every one.
//!
//! The calls that can go wrong take the way as a constant, so that the sound program pays nothing for the switch.

use crate::layout::{number_in, read_row, slot_of, store_row, word4, Entry, Flaw, Head, Row, M};
use crate::second::{append_commit, force_step, held_after, judge_open, judge_updates, judge_waiting, turn, Refused};
use crate::state::State;

#[derive(Clone, Copy, Debug, PartialEq, Eq)]
#[repr(u8)]
pub enum Fault {
    None,
    /// Replay by release label, as text: 1.10 comes before 1.9.
    ByLabel,
    /// Replaying committed transactions only: an aborted value that reached the table stays.
    CommittedOnly,
    /// Undoing in rising order: a cell written twice gets its middle value.
    RisingUndo,
    /// Judging write-back by `first` instead of `last`.
    BackByFirst,
    /// Storing the head before the last differing cell.
    HeadEarly,
    /// Cutting just after an update.
    CutAtUpdate,
    /// Asking for a cell out of range before filler.
    CellBeforeFiller,
    /// Not asking a commit or abort for a cell out of range.
    EndCellUnasked,
    /// Asking first whether an open row is an update: left-overs in an end entry go unsaid.
    NotAnUpdateEarly,
    /// Abort and begin name the highest bad row.
    HighestOpen,
    /// Recovery start names the highest bad row.
    HighestStored,
    /// The last good entry's number in place of the one expected.
    EntryOffByOne,
    /// Cut names a row beside 9.
    BesideNine,
    /// With no state of seven numbers, reason and entry stay as they were.
    LeftUnwritten,
    /// The search for a later row leaves out the last place.
    SearchShort,
    /// The search goes on to entry h+C+1, whose place is that of h+1.
    PastTurn,
    /// The search goes on past M, where the numbers wrap to 0.
    PastM,
    /// A row of the turn before counts.
    StaleCounts,
    /// A later number counts wherever it stands.
    OtherPlace,
    /// A later row counts only where it reads.
    LaterMustRead,
    /// The hole is named at the later row.
    HoleAtLater,
    /// A malformed row after the hole goes before it.
    LaterFlawFirst,
    /// The hole goes before a malformed row before it.
    HoleFirst,
    /// The journal ends at the hole.
    HoleIgnored,
    /// Commit stores its own row alone, and f passes over the rows that wait before it.
    CommitAlone,
    /// Commit leaves the last row, its own, to force.
    OneUnforced,
    /// Commit judges each row as it stores it: those before a bad one are stored.
    JudgedLate,
    /// A refused commit leaves its entry in the waiting row.
    RowLeft,
    /// Commit names the highest bad row.
    HighestWaiting,
    /// Commit answers the number before its own.
    NumberBefore,
    /// Commit judges rows before it asks whether a transaction is open.
    RowsBeforeOpen,
    /// Commit judges no row.
    RowsUnjudged,
    /// Commit judges the open transaction's rows, as abort does, and not those that it stores.
    OpenRowsJudged,
}

/// The ways of document 01.
pub const OF_THE_PAPER: [Fault; 6] =
    [Fault::ByLabel, Fault::CommittedOnly, Fault::RisingUndo, Fault::BackByFirst, Fault::HeadEarly, Fault::CutAtUpdate];
/// The ways to name a bad row wrongly.
pub const OF_NAMING: [Fault; 8] = [
    Fault::CellBeforeFiller,
    Fault::EndCellUnasked,
    Fault::NotAnUpdateEarly,
    Fault::HighestOpen,
    Fault::HighestStored,
    Fault::EntryOffByOne,
    Fault::BesideNine,
    Fault::LeftUnwritten,
];
/// The ways about a hole.
pub const OF_HOLES: [Fault; 10] = [
    Fault::SearchShort,
    Fault::PastTurn,
    Fault::PastM,
    Fault::StaleCounts,
    Fault::OtherPlace,
    Fault::LaterMustRead,
    Fault::HoleAtLater,
    Fault::LaterFlawFirst,
    Fault::HoleFirst,
    Fault::HoleIgnored,
];
/// The ways to commit wrongly.
pub const OF_COMMIT: [Fault; 9] = [
    Fault::CommitAlone,
    Fault::OneUnforced,
    Fault::JudgedLate,
    Fault::RowLeft,
    Fault::HighestWaiting,
    Fault::NumberBefore,
    Fault::RowsBeforeOpen,
    Fault::RowsUnjudged,
    Fault::OpenRowsJudged,
];

pub const NONE: u8 = Fault::None as u8;
pub const BY_LABEL: u8 = Fault::ByLabel as u8;
pub const COMMITTED_ONLY: u8 = Fault::CommittedOnly as u8;
pub const RISING_UNDO: u8 = Fault::RisingUndo as u8;
pub const BACK_BY_FIRST: u8 = Fault::BackByFirst as u8;
pub const HEAD_EARLY: u8 = Fault::HeadEarly as u8;
pub const CUT_AT_UPDATE: u8 = Fault::CutAtUpdate as u8;
pub const CELL_BEFORE_FILLER: u8 = Fault::CellBeforeFiller as u8;
pub const END_CELL_UNASKED: u8 = Fault::EndCellUnasked as u8;
pub const NOT_AN_UPDATE_EARLY: u8 = Fault::NotAnUpdateEarly as u8;
pub const HIGHEST_OPEN: u8 = Fault::HighestOpen as u8;
pub const HIGHEST_STORED: u8 = Fault::HighestStored as u8;
pub const ENTRY_OFF_BY_ONE: u8 = Fault::EntryOffByOne as u8;
pub const BESIDE_NINE: u8 = Fault::BesideNine as u8;
pub const LEFT_UNWRITTEN: u8 = Fault::LeftUnwritten as u8;
pub const SEARCH_SHORT: u8 = Fault::SearchShort as u8;
pub const PAST_TURN: u8 = Fault::PastTurn as u8;
pub const PAST_M: u8 = Fault::PastM as u8;
pub const STALE_COUNTS: u8 = Fault::StaleCounts as u8;
pub const OTHER_PLACE: u8 = Fault::OtherPlace as u8;
pub const LATER_MUST_READ: u8 = Fault::LaterMustRead as u8;
pub const HOLE_AT_LATER: u8 = Fault::HoleAtLater as u8;
pub const LATER_FLAW_FIRST: u8 = Fault::LaterFlawFirst as u8;
pub const HOLE_FIRST: u8 = Fault::HoleFirst as u8;
pub const HOLE_IGNORED: u8 = Fault::HoleIgnored as u8;
pub const COMMIT_ALONE: u8 = Fault::CommitAlone as u8;
pub const ONE_UNFORCED: u8 = Fault::OneUnforced as u8;
pub const JUDGED_LATE: u8 = Fault::JudgedLate as u8;
pub const ROW_LEFT: u8 = Fault::RowLeft as u8;
pub const HIGHEST_WAITING: u8 = Fault::HighestWaiting as u8;
pub const NUMBER_BEFORE: u8 = Fault::NumberBefore as u8;
pub const ROWS_BEFORE_OPEN: u8 = Fault::RowsBeforeOpen as u8;
pub const ROWS_UNJUDGED: u8 = Fault::RowsUnjudged as u8;
pub const OPEN_ROWS_JUDGED: u8 = Fault::OpenRowsJudged as u8;

/// The committed updates of entries h+1 to e, in order of number.
fn committed(rows: &[Row], head: &Head, e: u32) -> Vec<(usize, u64)> {
    let (mut done, mut open) = (Vec::new(), Vec::new());
    for row in turn(rows, head.h, e) {
        match read_row(row, head.cells, number_in(row)) {
            Ok(Entry::Update { cell, new, .. }) => open.push((cell as usize, new)),
            Ok(Entry::Commit) => done.append(&mut open),
            _ => open.clear(),
        }
    }
    done
}

/// The way `CommittedOnly`.
pub fn replay_committed(rows: &[Row], head: &Head, e: u32, current: &mut [u64]) {
    for (cell, new) in committed(rows, head, e) {
        current[cell] = new;
    }
}

/// The way `ByLabel`, after a sound replay: the committed updates once more, in the order of their labels' text.
pub fn replay_by_label(rows: &[Row], head: &Head, e: u32, current: &mut [u64]) {
    let mut updates = committed(rows, head, e);
    updates.sort_by_key(|&(_, new)| format!("{}.{}", new >> 32 & 0xffff, new >> 48));
    for (cell, new) in updates {
        current[cell] = new;
    }
}

/// The flaw and the entry that are said of the lowest bad row.
pub fn named<const FAULT: u8>(flaw: Flaw, row: &Row, cells: u32, entry: u32) -> (Flaw, u32) {
    let end = matches!(row[4], 2 | 3);
    match (FAULT, flaw) {
        (CELL_BEFORE_FILLER, Flaw::FillerNotZero) if word4(row, 8) >= cells => (Flaw::CellOutOfRange, entry),
        (END_CELL_UNASKED, Flaw::CellOutOfRange) if end => (Flaw::CellLeft, entry),
        (ENTRY_OFF_BY_ONE, _) => (flaw, entry - 1),
        _ => (flaw, entry),
    }
}

/// The way `HighestStored`: the last row of the stored journal that doesn't read.
pub fn highest_stored<'a>(rows: &'a [Row], head: &Head) -> (Flaw, &'a Row, u32) {
    let stored = turn(rows, head.h, M).zip(head.h..M).take_while(|(row, n)| number_in(row) == n + 1);
    let flawed = |(row, n): (&'a Row, u32)| read_row(row, head.cells, n + 1).err().map(|flaw| (flaw, row, n + 1));
    stored.filter_map(flawed).last().unwrap()
}

/// What is said where entry n, from h+1 on, is the first whose row doesn't hold it: the flaw and its entry, or none where the
/// journal ends.
#[inline(always)]
pub fn hole<const FAULT: u8>(rows: &[Row], head: &Head, n: u32) -> Option<(Flaw, u32)> {
    match FAULT {
        HOLE_IGNORED => None,
        HOLE_AT_LATER => held_after(rows, head.h, n).map(|later| (Flaw::Hole, later)),
        LATER_FLAW_FIRST => later_flaw(rows, head, n).or_else(|| hole::<NONE>(rows, head, n)),
        SEARCH_SHORT..=LATER_MUST_READ => searched::<FAULT>(rows, head, n).then_some((Flaw::Hole, n)),
        _ => held_after(rows, head.h, n).map(|_| (Flaw::Hole, n)),
    }
}

/// The numbers after n, up to the lesser of h+C and M, each with its row.
fn after<'a>(rows: &'a [Row], head: &Head, n: u32) -> impl Iterator<Item = (u32, &'a Row)> + 'a {
    let slots = head.slots;
    (n..head.h.saturating_add(slots)).map(move |k| (k + 1, &rows[slot_of(k + 1, slots)]))
}

/// Whether a later row is found by one of the ways to search for it wrongly.
fn searched<const FAULT: u8>(rows: &[Row], head: &Head, n: u32) -> bool {
    let &Head { cells, slots, h } = head;
    let last = h.saturating_add(slots);
    let found = held_after(rows, h, n);
    match FAULT {
        SEARCH_SHORT => found.is_some_and(|later| later != last),
        PAST_TURN => found.is_some() || M - h > slots && number_in(&rows[slot_of(last + 1, slots)]) == last + 1,
        PAST_M => found.is_some() || M - h < slots && number_in(&rows[(M % slots) as usize]) == 0,
        STALE_COUNTS => {
            let stale = |(k, row): (u32, &Row)| k > slots && number_in(row) == k - slots;
            found.is_some() || after(rows, head, n).any(stale)
        }
        OTHER_PLACE => rows.iter().any(|row| (n..=last).contains(&number_in(row)) && number_in(row) != n),
        _ => after(rows, head, n).any(|(k, row)| read_row(row, cells, k).is_ok()),
    }
}

/// The way `LaterFlawFirst`: the first row after n that holds its number and doesn't read.
fn later_flaw(rows: &[Row], head: &Head, n: u32) -> Option<(Flaw, u32)> {
    let held = after(rows, head, n).filter(|(k, row)| number_in(row) == *k);
    held.filter_map(|(k, row)| read_row(row, head.cells, k).err().map(|flaw| (flaw, k))).next()
}

/// The way `HoleFirst`: the hole, whatever stands before it.
pub fn hole_first<'a>(rows: &'a [Row], head: &Head) -> Option<(Flaw, &'a Row, u32)> {
    let (n, row) = after(rows, head, head.h).find(|(k, row)| number_in(row) != *k)?;
    held_after(rows, head.h, n).map(|_| (Flaw::Hole, row, n))
}

/// A commit that goes wrong, of a state and lengths that are right.
pub fn commit<const FAULT: u8>(state: State, medium: &mut [u8], waiting: &mut [u8]) -> Result<(State, u32), Refused> {
    if FAULT == ROWS_BEFORE_OPEN {
        judge_waiting::<NONE>(&state, waiting)?;
    }
    judge_open(&state)?;
    match FAULT {
        JUDGED_LATE => {
            let mut forced = state;
            while forced.f < forced.l {
                (forced, _) = force_step::<NONE>(forced, medium, waiting)?;
            }
        }
        ROW_LEFT => {
            append_commit(state, waiting);
            judge_waiting::<NONE>(&state, waiting)?;
        }
        HIGHEST_WAITING => {
            let bad = |n: u32| judge_waiting::<NONE>(&State { f: n, l: n + 1, ..state }, waiting);
            (state.f..state.l).rev().try_for_each(bad)?;
        }
        ROWS_UNJUDGED => {}
        OPEN_ROWS_JUDGED => judge_updates::<NONE>(&state, waiting)?,
        _ => judge_waiting::<NONE>(&state, waiting)?,
    }
    let state = append_commit(state, waiting);
    let (from, to) = match FAULT {
        COMMIT_ALONE => (state.l - 1, state.l),
        ONE_UNFORCED => (state.f, state.l - 1),
        _ => (state.f, state.l),
    };
    for n in from..to {
        let slot = slot_of(n + 1, state.slots);
        store_row(medium, slot, &waiting.as_chunks().0[slot]);
    }
    Ok((State { f: to, ..state }, if FAULT == NUMBER_BEFORE { state.l - 1 } else { state.l }))
}

//! The calls in the shape of the C boundary, so that two keepers can be driven with the same arguments.
//!
//! The state is a lent slice of seven numbers, the answer is the refusal number (0 is done), and a value goes out through a
//! reference, 0 on refusal. A refused call leaves the state as it was, but a refused recovery start writes seven zeros to a
//! state of seven numbers. A call that reads rows writes which one is bad, with every answer.

use crate::fault::{self, Fault};
use crate::layout::{self, Entry, Row, REASONS};
use crate::second::{self, Place, Refusal, Refused, Step, Work, OUT_OF_RULE};
use crate::state::{State, NUMBERS};
use std::fmt;

/// The value of a recovery step that stored the head.
pub const STEP_HEAD: u64 = 1 << 32;
/// The value of a recovery step that stored nothing.
pub const STEP_CLEAN: u64 = STEP_HEAD + 1;

/// The lowest bad row, beside refusals 2 and 7; zeros beside every other answer.
#[derive(Clone, Copy, Debug, Default, PartialEq, Eq)]
pub struct BadRow {
    /// The number of the first thing wrong with it.
    pub reason: u32,
    /// The number of the entry expected in it.
    pub entry: u32,
}

impl BadRow {
    /// Writes the row that a refusal names, if any, and answers the refusal's number.
    #[inline(always)]
    fn name(&mut self, refused: Refused) -> Refusal {
        if let Some((flaw, entry)) = refused.row {
            *self = BadRow { reason: flaw as u32, entry };
        }
        refused.number
    }
}

/// The line for people.
impl fmt::Display for BadRow {
    fn fmt(&self, out: &mut fmt::Formatter) -> fmt::Result {
        let reason = REASONS.get(self.reason as usize).unwrap_or(&"no such reason");
        write!(out, "entry {}: {reason}", self.entry)
    }
}

#[allow(clippy::too_many_arguments)]
pub trait Keeper {
    fn format(&self, medium: &mut [u8], cells: u32, slots: u32) -> u32;
    fn recovery_start(
        &self,
        medium: &[u8],
        current: &mut [u64],
        first: &mut [u32],
        last: &mut [u32],
        waiting: &[u8],
        state: &mut [u32],
        bad: &mut BadRow,
    ) -> u32;
    /// The value is c for cell c, else `STEP_HEAD` or `STEP_CLEAN`.
    fn recovery_step(&self, state: &mut [u32], medium: &mut [u8], current: &[u64], value: &mut u64) -> u32;
    fn begin(
        &self,
        state: &mut [u32],
        current: &mut [u64],
        first: &mut [u32],
        last: &mut [u32],
        waiting: &mut [u8],
        bad: &mut BadRow,
    ) -> u32;
    fn read(&self, state: &mut [u32], cell: u32, current: &[u64], value: &mut u64) -> u32;
    fn write(
        &self,
        state: &mut [u32],
        cell: u32,
        new: u64,
        current: &mut [u64],
        first: &mut [u32],
        last: &mut [u32],
        waiting: &mut [u8],
    ) -> u32;
    fn commit(
        &self,
        state: &mut [u32],
        medium: &mut [u8],
        waiting: &mut [u8],
        value: &mut u64,
        bad: &mut BadRow,
    ) -> u32;
    fn abort(
        &self,
        state: &mut [u32],
        current: &mut [u64],
        first: &mut [u32],
        last: &mut [u32],
        waiting: &mut [u8],
        bad: &mut BadRow,
    ) -> u32;
    fn force(&self, state: &mut [u32], medium: &mut [u8], waiting: &[u8], value: &mut u64, bad: &mut BadRow) -> u32;
    /// The value is 1 for stored, 0 for clean.
    fn write_back(
        &self,
        state: &mut [u32],
        cell: u32,
        medium: &mut [u8],
        current: &[u64],
        first: &mut [u32],
        last: &[u32],
        value: &mut u64,
    ) -> u32;
    fn cut(&self, state: &mut [u32], p: u32, medium: &mut [u8], first: &[u32], bad: &mut BadRow) -> u32;
    /// The value is the offset of the 32 bytes: in the medium where n <= f, else in the waiting rows.
    fn look(&self, state: &[u32], n: u32, medium: &[u8], waiting: &[u8], value: &mut u64) -> u32;
    /// The value is the offset of the table, which is the rest of the medium.
    fn table_view(&self, medium: &[u8], value: &mut u64) -> u32;
    /// 0 nothing, else the kind. The fields become cell, old, new, 0 of an update; of nothing 0, 0, 0 and the number of the
    /// first thing wrong; else zeros.
    fn read_row(&self, row: &[u8], cells: u32, number: u32, fields: &mut [u64; 4]) -> u32;
    /// Writes the first 32 bytes, or answers 1 where they would not be a row.
    fn write_row(&self, row: &mut [u8], number: u32, kind: u32, cell: u32, old: u64, new: u64) -> u32;
}

/// The second program, with a way to go wrong.
pub struct Second<const FAULT: u8>;

/// The second program with the fault in it.
pub fn second(fault: Fault) -> &'static dyn Keeper {
    match fault {
        Fault::None => &Second::<{ fault::NONE }>,
        Fault::ByLabel => &Second::<{ fault::BY_LABEL }>,
        Fault::CommittedOnly => &Second::<{ fault::COMMITTED_ONLY }>,
        Fault::RisingUndo => &Second::<{ fault::RISING_UNDO }>,
        Fault::BackByFirst => &Second::<{ fault::BACK_BY_FIRST }>,
        Fault::HeadEarly => &Second::<{ fault::HEAD_EARLY }>,
        Fault::CutAtUpdate => &Second::<{ fault::CUT_AT_UPDATE }>,
        Fault::CellBeforeFiller => &Second::<{ fault::CELL_BEFORE_FILLER }>,
        Fault::EndCellUnasked => &Second::<{ fault::END_CELL_UNASKED }>,
        Fault::NotAnUpdateEarly => &Second::<{ fault::NOT_AN_UPDATE_EARLY }>,
        Fault::HighestOpen => &Second::<{ fault::HIGHEST_OPEN }>,
        Fault::HighestStored => &Second::<{ fault::HIGHEST_STORED }>,
        Fault::EntryOffByOne => &Second::<{ fault::ENTRY_OFF_BY_ONE }>,
        Fault::BesideNine => &Second::<{ fault::BESIDE_NINE }>,
        Fault::LeftUnwritten => &Second::<{ fault::LEFT_UNWRITTEN }>,
        Fault::SearchShort => &Second::<{ fault::SEARCH_SHORT }>,
        Fault::PastTurn => &Second::<{ fault::PAST_TURN }>,
        Fault::PastM => &Second::<{ fault::PAST_M }>,
        Fault::StaleCounts => &Second::<{ fault::STALE_COUNTS }>,
        Fault::OtherPlace => &Second::<{ fault::OTHER_PLACE }>,
        Fault::LaterMustRead => &Second::<{ fault::LATER_MUST_READ }>,
        Fault::HoleAtLater => &Second::<{ fault::HOLE_AT_LATER }>,
        Fault::LaterFlawFirst => &Second::<{ fault::LATER_FLAW_FIRST }>,
        Fault::HoleFirst => &Second::<{ fault::HOLE_FIRST }>,
        Fault::HoleIgnored => &Second::<{ fault::HOLE_IGNORED }>,
        Fault::CommitAlone => &Second::<{ fault::COMMIT_ALONE }>,
        Fault::OneUnforced => &Second::<{ fault::ONE_UNFORCED }>,
        Fault::JudgedLate => &Second::<{ fault::JUDGED_LATE }>,
        Fault::RowLeft => &Second::<{ fault::ROW_LEFT }>,
        Fault::HighestWaiting => &Second::<{ fault::HIGHEST_WAITING }>,
        Fault::NumberBefore => &Second::<{ fault::NUMBER_BEFORE }>,
        Fault::RowsBeforeOpen => &Second::<{ fault::ROWS_BEFORE_OPEN }>,
        Fault::RowsUnjudged => &Second::<{ fault::ROWS_UNJUDGED }>,
        Fault::OpenRowsJudged => &Second::<{ fault::OPEN_ROWS_JUDGED }>,
    }
}

fn number(done: Result<(), Refusal>) -> u32 {
    done.err().unwrap_or(0)
}

/// Runs a call that hands back a state and a value.
fn valued(numbers: &mut [u32], value: &mut u64, call: impl FnOnce(State) -> Result<(State, u64), Refusal>) -> u32 {
    *value = 0;
    let Some(state) = State::of(numbers) else {
        return OUT_OF_RULE;
    };
    match call(state) {
        Ok((state, answer)) => {
            numbers.copy_from_slice(&state.numbers());
            *value = answer;
            0
        }
        Err(refusal) => refusal,
    }
}

/// Before a call that reads rows: it names none yet.
#[inline(always)]
fn unnamed<const FAULT: u8>(numbers: &[u32], bad: &mut BadRow) {
    if FAULT != fault::LEFT_UNWRITTEN || numbers.len() == NUMBERS {
        *bad = BadRow::default();
    }
}

/// Runs a call that hands back a state alone.
fn stated(numbers: &mut [u32], call: impl FnOnce(State) -> Result<State, Refusal>) -> u32 {
    valued(numbers, &mut 0, |state| call(state).map(|state| (state, 0)))
}

// Each call stays a call of its own, as the library's are: nothing is inlined into a measuring loop.
impl<const FAULT: u8> Keeper for Second<FAULT> {
    #[inline(never)]
    fn format(&self, medium: &mut [u8], cells: u32, slots: u32) -> u32 {
        number(second::format(medium, cells, slots))
    }

    #[inline(never)]
    fn recovery_start(
        &self,
        medium: &[u8],
        current: &mut [u64],
        first: &mut [u32],
        last: &mut [u32],
        waiting: &[u8],
        state: &mut [u32],
        bad: &mut BadRow,
    ) -> u32 {
        unnamed::<FAULT>(state, bad);
        if state.len() != NUMBERS {
            return OUT_OF_RULE;
        }
        match second::recovery_start::<FAULT>(medium, current, first, last, waiting) {
            Ok(next) => {
                state.copy_from_slice(&next.numbers());
                0
            }
            Err(refused) => {
                state.fill(0);
                bad.name(refused)
            }
        }
    }

    #[inline(never)]
    fn recovery_step(&self, state: &mut [u32], medium: &mut [u8], current: &[u64], value: &mut u64) -> u32 {
        valued(state, value, |state| {
            let (state, step) = second::recovery_step::<FAULT>(state, medium, current)?;
            let value = match step {
                Step::Cell(cell) => cell as u64,
                Step::Head => STEP_HEAD,
                Step::Clean => STEP_CLEAN,
            };
            Ok((state, value))
        })
    }

    #[inline(never)]
    fn begin(
        &self,
        state: &mut [u32],
        current: &mut [u64],
        first: &mut [u32],
        last: &mut [u32],
        waiting: &mut [u8],
        bad: &mut BadRow,
    ) -> u32 {
        unnamed::<FAULT>(state, bad);
        let work = Work { current, first, last, waiting };
        stated(state, |state| second::begin::<FAULT>(state, work).map_err(|refused| bad.name(refused)))
    }

    #[inline(never)]
    fn read(&self, state: &mut [u32], cell: u32, current: &[u64], value: &mut u64) -> u32 {
        valued(state, value, |state| Ok((state, second::read(state, cell, current)?)))
    }

    #[inline(never)]
    fn write(
        &self,
        state: &mut [u32],
        cell: u32,
        new: u64,
        current: &mut [u64],
        first: &mut [u32],
        last: &mut [u32],
        waiting: &mut [u8],
    ) -> u32 {
        stated(state, |state| second::write(state, cell, new, Work { current, first, last, waiting }))
    }

    #[inline(never)]
    fn commit(
        &self,
        state: &mut [u32],
        medium: &mut [u8],
        waiting: &mut [u8],
        value: &mut u64,
        bad: &mut BadRow,
    ) -> u32 {
        unnamed::<FAULT>(state, bad);
        valued(state, value, |state| {
            let committed = second::commit::<FAULT>(state, medium, waiting);
            let (state, number) = committed.map_err(|refused| bad.name(refused))?;
            Ok((state, number as u64))
        })
    }

    #[inline(never)]
    fn abort(
        &self,
        state: &mut [u32],
        current: &mut [u64],
        first: &mut [u32],
        last: &mut [u32],
        waiting: &mut [u8],
        bad: &mut BadRow,
    ) -> u32 {
        unnamed::<FAULT>(state, bad);
        let work = Work { current, first, last, waiting };
        stated(state, |state| second::abort::<FAULT>(state, work).map_err(|refused| bad.name(refused)))
    }

    #[inline(never)]
    fn force(&self, state: &mut [u32], medium: &mut [u8], waiting: &[u8], value: &mut u64, bad: &mut BadRow) -> u32 {
        unnamed::<FAULT>(state, bad);
        valued(state, value, |state| {
            let forced = second::force::<FAULT>(state, medium, waiting);
            let (state, number) = forced.map_err(|refused| bad.name(refused))?;
            Ok((state, number as u64))
        })
    }

    #[inline(never)]
    fn write_back(
        &self,
        state: &mut [u32],
        cell: u32,
        medium: &mut [u8],
        current: &[u64],
        first: &mut [u32],
        last: &[u32],
        value: &mut u64,
    ) -> u32 {
        valued(state, value, |state| {
            let stored = second::write_back::<FAULT>(state, cell, medium, current, first, last)?;
            Ok((state, stored as u64))
        })
    }

    #[inline(never)]
    fn cut(&self, state: &mut [u32], p: u32, medium: &mut [u8], first: &[u32], bad: &mut BadRow) -> u32 {
        unnamed::<FAULT>(state, bad);
        stated(state, |state| second::cut::<FAULT>(state, p, medium, first).map_err(|refused| bad.name(refused)))
    }

    #[inline(never)]
    fn look(&self, state: &[u32], n: u32, medium: &[u8], waiting: &[u8], value: &mut u64) -> u32 {
        *value = 0;
        let Some(state) = State::of(state) else {
            return OUT_OF_RULE;
        };
        match second::look(state, n, medium, waiting) {
            Ok(Place::Medium(at) | Place::Waiting(at)) => {
                *value = at as u64;
                0
            }
            Err(refusal) => refusal,
        }
    }

    #[inline(never)]
    fn table_view(&self, medium: &[u8], value: &mut u64) -> u32 {
        let view = second::table_view(medium);
        *value = view.unwrap_or(0) as u64;
        number(view.map(|_| ()))
    }

    #[inline(never)]
    fn read_row(&self, row: &[u8], cells: u32, number: u32, fields: &mut [u64; 4]) -> u32 {
        let (kind, read) = match layout::read_row(row, cells, number) {
            Ok(Entry::Update { cell, old, new }) => (1, [cell as u64, old, new, 0]),
            Ok(Entry::Commit) => (2, [0; 4]),
            Ok(Entry::Abort) => (3, [0; 4]),
            Err(flaw) => (0, [0, 0, 0, flaw as u64]),
        };
        *fields = read;
        kind
    }

    #[inline(never)]
    fn write_row(&self, row: &mut [u8], number: u32, kind: u32, cell: u32, old: u64, new: u64) -> u32 {
        let entry = match kind {
            1 => Entry::Update { cell, old, new },
            2 | 3 if cell != 0 || old | new != 0 => return 1,
            2 => Entry::Commit,
            3 => Entry::Abort,
            _ => return 1,
        };
        let Some(row): Option<&mut Row> = row.first_chunk_mut() else {
            return 1;
        };
        if number == 0 {
            return 1;
        }
        layout::write_row(row, number, entry);
        0
    }
}

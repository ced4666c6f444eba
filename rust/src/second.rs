//! Every call over bytes, with every refusal in its order.
//!
//! A call takes the state by value and hands back the next one, or refuses with a number and leaves every lent buffer
//! untouched; a call that reads rows names the lowest bad one beside refusals 2 and 7. Each call first judges the state and
//! the length of all that it is lent. `FAULT` is a way to go wrong, `fault::NONE` for the sound program.
//!
//! The helpers that hold a state or workspaces are always inlined, so that neither goes through memory.

use crate::fault;
use crate::layout::*;
use crate::state::{Phase, State};

pub type Refusal = u32;

/// The state is not sound, or a lent buffer has another length than N and C say, or the head is out of rule.
pub const OUT_OF_RULE: Refusal = 1;
/// A row with the expected number doesn't read as an entry, or there is a hole in the journal.
pub const BROKEN_ROW: Refusal = 2;
/// No transaction is open.
pub const NOT_OPEN: Refusal = 3;
pub const NO_SUCH_CELL: Refusal = 4;
/// No room in the journal.
pub const NO_ROOM: Refusal = 5;
/// The entry numbers are used up.
pub const NO_NUMBER: Refusal = 6;
/// A row isn't the entry that the call needs.
pub const WRONG_ROW: Refusal = 7;
/// The cell's last change isn't stored in the journal.
pub const NOT_STORED: Refusal = 8;
pub const NO_CUT: Refusal = 9;
/// Recovering; or, for recovery step, not recovering.
pub const WRONG_PHASE: Refusal = 10;
pub const NO_SUCH_ENTRY: Refusal = 11;

/// The refusal of a call that reads rows.
#[derive(Clone, Copy, Debug, PartialEq, Eq)]
pub struct Refused {
    pub number: Refusal,
    /// Beside 2 and 7 alone: the first thing wrong with the lowest bad row, and the entry expected in it.
    pub row: Option<(Flaw, u32)>,
}

impl From<Refusal> for Refused {
    #[inline(always)]
    fn from(number: Refusal) -> Refused {
        Refused { number, row: None }
    }
}

/// The refusal for a row that isn't entry `entry`.
#[cold]
#[inline(never)]
fn bad_row<const FAULT: u8>(number: Refusal, flaw: Flaw, row: &Row, cells: u32, entry: u32) -> Refused {
    Refused { number, row: Some(fault::named::<FAULT>(flaw, row, cells, entry)) }
}

/// The workspaces, lost at power loss.
pub struct Work<'a> {
    pub current: &'a mut [u64],
    /// Per cell, the entry that first changed it since it was stored, or 0.
    pub first: &'a mut [u32],
    /// Per cell, the entry that last changed it.
    pub last: &'a mut [u32],
    /// The entries made, placed as on the medium.
    pub waiting: &'a mut [u8],
}

impl Work<'_> {
    #[inline(always)]
    fn fits(&self, state: &State) -> bool {
        let cells = state.cells as usize;
        self.current.len() == cells
            && self.first.len() == cells
            && self.last.len() == cells
            && waiting_fits(state, self.waiting)
    }

    /// Makes `value` the cell's current one, by entry `number`.
    #[inline(always)]
    fn set(&mut self, cell: u32, value: u64, number: u32) {
        let cell = cell as usize;
        self.current[cell] = value;
        self.last[cell] = number;
        if self.first[cell] == 0 {
            self.first[cell] = number;
        }
    }
}

#[inline]
fn waiting_fits(state: &State, waiting: &[u8]) -> bool {
    waiting.len() == ROW * state.slots as usize
}

#[inline]
fn medium_fits(state: &State, medium: &[u8]) -> bool {
    medium.len() == medium_len(state.cells, state.slots)
}

/// Refusals 1 and 10 of every call but recovery's. `fits` says whether the lent lengths are right for a sound state.
#[inline(always)]
fn judge(state: &State, fits: impl FnOnce() -> bool) -> Result<(), Refusal> {
    if !state.is_sound() || !fits() {
        return Err(OUT_OF_RULE);
    }
    if state.phase == Phase::Recovering {
        return Err(WRONG_PHASE);
    }
    Ok(())
}

#[inline]
pub(crate) fn judge_open(state: &State) -> Result<(), Refusal> {
    if state.phase == Phase::Run {
        Ok(())
    } else {
        Err(NOT_OPEN)
    }
}

#[inline]
fn judge_cell(state: &State, cell: u32) -> Result<(), Refusal> {
    if cell < state.cells {
        Ok(())
    } else {
        Err(NO_SUCH_CELL)
    }
}

/// Room and a number for one entry in run, with one more of each left for the transaction's end.
#[inline]
fn judge_room(state: &State) -> Result<(), Refusal> {
    if state.l - state.h > state.slots - 2 {
        return Err(NO_ROOM);
    }
    if state.l > M - 2 {
        return Err(NO_NUMBER);
    }
    Ok(())
}

/// The waiting row of an entry, where it is that entry.
#[inline(always)]
fn waiting_row<'a, const FAULT: u8>(state: &State, waiting: &'a [u8], number: u32) -> Result<&'a Row, Refused> {
    let row = &waiting.as_chunks().0[slot_of(number, state.slots)];
    match read_row(row, state.cells, number) {
        Ok(_) => Ok(row),
        Err(flaw) => Err(bad_row::<FAULT>(WRONG_ROW, flaw, row, state.cells, number)),
    }
}

/// Whether the waiting rows hold the entries that are not stored.
#[inline(always)]
pub(crate) fn judge_waiting<const FAULT: u8>(state: &State, waiting: &[u8]) -> Result<(), Refused> {
    (state.f..state.l).try_for_each(|n| waiting_row::<FAULT>(state, waiting, n + 1).map(drop))
}

/// Whether the waiting rows hold the open transaction's updates.
#[inline(always)]
pub(crate) fn judge_updates<const FAULT: u8>(state: &State, waiting: &[u8]) -> Result<(), Refused> {
    let rows = waiting.as_chunks().0;
    let (low, high) = (state.o + 1, state.l);
    for k in low..high + 1 {
        let number = if FAULT == fault::HIGHEST_OPEN { low + (high - k) } else { k };
        let row: &Row = &rows[slot_of(number, state.slots)];
        let flaw = match read_row(row, state.cells, number) {
            Ok(Entry::Update { .. }) => continue,
            Ok(_) => Flaw::NotAnUpdate,
            Err(flaw) if FAULT == fault::NOT_AN_UPDATE_EARLY && flaw >= Flaw::CellLeft => Flaw::NotAnUpdate,
            Err(flaw) => flaw,
        };
        return Err(bad_row::<FAULT>(WRONG_ROW, flaw, row, state.cells, number));
    }
    Ok(())
}

/// Hands each update of entries low+1 to high, in falling order, its cell and old value.
#[inline(always)]
fn undo<const FAULT: u8>(rows: &[Row], cells: u32, low: u32, high: u32, mut restore: impl FnMut(u32, u64)) {
    for k in 0..high - low {
        let number = if FAULT == fault::RISING_UNDO { low + 1 + k } else { high - k };
        let row = &rows[slot_of(number, rows.len() as u32)];
        if let Ok(Entry::Update { cell, old, .. }) = read_row(row, cells, number) {
            restore(cell, old);
        }
    }
}

/// Builds entry l+1 in its waiting row.
#[inline(always)]
fn append(state: &mut State, waiting: &mut [u8], entry: Entry) {
    state.l += 1;
    let row = &mut waiting.as_chunks_mut().0[slot_of(state.l, state.slots)];
    write_row(row, state.l, entry);
}

/// Undoes the open transaction, whose updates were judged, and appends its abort.
#[inline(always)]
fn roll_back<const FAULT: u8>(mut state: State, work: Work) -> State {
    let Work { current, first, last, waiting } = work;
    let (low, high) = (state.o, state.l);
    append(&mut state, waiting, Entry::Abort);
    let mut cells = Work { current, first, last, waiting: &mut [] };
    let rows = waiting.as_chunks().0;
    undo::<FAULT>(rows, state.cells, low, high, |cell, old| cells.set(cell, old, state.l));
    State { o: state.l, phase: Phase::Idle, ..state }
}

#[inline]
pub fn format(medium: &mut [u8], cells: u32, slots: u32) -> Result<(), Refusal> {
    if !sizes_in_rule(cells, slots) || medium.len() != medium_len(cells, slots) {
        return Err(OUT_OF_RULE);
    }
    medium[HEAD..].fill(0);
    Head { cells, slots, h: 0 }.store(medium);
    Ok(())
}

/// The rows of entries h+1 to e, in order, at most one turn of the journal.
#[inline]
pub fn turn(rows: &[Row], h: u32, e: u32) -> impl Iterator<Item = &Row> {
    let (before, from) = rows.split_at(h as usize % rows.len());
    from.iter().chain(before).take((e - h) as usize)
}

/// The first number after n, up to the lesser of h+C and M, that its own row holds; n is from h+1 on.
#[inline]
pub fn held_after(rows: &[Row], h: u32, n: u32) -> Option<u32> {
    let (mut number, left) = (n, rows.len() - (n - h) as usize);
    let held = |row: &Row| {
        number += 1;
        number_in(row) == number
    };
    turn(rows, n, M).take(left).any(held).then_some(number)
}

/// The last entry of the stored journal, which has no hole.
#[inline]
fn last_stored<const FAULT: u8>(rows: &[Row], head: &Head) -> Result<u32, Refused> {
    let mut e = head.h;
    for row in turn(rows, head.h, M) {
        if number_in(row) != e + 1 {
            let Some((flaw, entry)) = fault::hole::<FAULT>(rows, head, e + 1) else {
                break;
            };
            return Err(bad_row::<FAULT>(BROKEN_ROW, flaw, row, head.cells, entry));
        }
        if let Err(flaw) = read_row(row, head.cells, e + 1) {
            let (flaw, row, entry) = match FAULT {
                fault::HIGHEST_STORED => fault::highest_stored(rows, head),
                fault::HOLE_FIRST => fault::hole_first(rows, head).unwrap_or((flaw, row, e + 1)),
                _ => (flaw, row, e + 1),
            };
            return Err(bad_row::<FAULT>(BROKEN_ROW, flaw, row, head.cells, entry));
        }
        e += 1;
    }
    Ok(e)
}

/// Works entries h+1 to e into the current values, which are the table's.
#[inline]
fn replay<const FAULT: u8>(rows: &[Row], head: &Head, e: u32, current: &mut [u64]) {
    let (mut number, mut ended) = (head.h, head.h);
    for row in turn(rows, head.h, e) {
        number += 1;
        match read_row(row, head.cells, number) {
            Ok(Entry::Update { cell, new, .. }) => current[cell as usize] = new,
            Ok(Entry::Abort) => {
                undo::<FAULT>(rows, head.cells, ended, number - 1, |cell, old| current[cell as usize] = old);
                ended = number;
            }
            Ok(Entry::Commit) => ended = number,
            Err(_) => {}
        }
    }
    undo::<FAULT>(rows, head.cells, ended, e, |cell, old| current[cell as usize] = old);
}

/// Reads the journal and works out the table that recovery's steps will store. The medium and the waiting rows are only
/// looked at.
#[inline]
pub fn recovery_start<const FAULT: u8>(
    medium: &[u8],
    current: &mut [u64],
    first: &mut [u32],
    last: &mut [u32],
    waiting: &[u8],
) -> Result<State, Refused> {
    let head = Head::of(medium).ok_or(OUT_OF_RULE)?;
    let Head { cells, slots, h } = head;
    let lengths = [current.len(), first.len(), last.len()];
    if lengths != [cells as usize; 3] || waiting.len() != ROW * slots as usize {
        return Err(OUT_OF_RULE.into());
    }
    let rows = rows(medium, slots);
    let e = last_stored::<FAULT>(rows, &head)?;
    for (value, cell) in current.iter_mut().zip(table(medium, slots)) {
        *value = u64::from_le_bytes(*cell);
    }
    if FAULT == fault::COMMITTED_ONLY {
        fault::replay_committed(rows, &head, e, current);
    } else {
        replay::<FAULT>(rows, &head, e, current);
    }
    if FAULT == fault::BY_LABEL {
        fault::replay_by_label(rows, &head, e, current);
    }
    first.fill(0);
    last.fill(0);
    Ok(State { cells, slots, h, f: e, l: e, o: e, phase: Phase::Recovering })
}

/// What a recovery step stored.
#[derive(Clone, Copy, Debug, PartialEq, Eq)]
pub enum Step {
    Cell(u32),
    Head,
    Clean,
}

/// Stores the lowest cell that differs, else the head where an entry is left, else nothing.
#[inline]
pub fn recovery_step<const FAULT: u8>(
    state: State,
    medium: &mut [u8],
    current: &[u64],
) -> Result<(State, Step), Refusal> {
    if !state.is_sound() || !medium_fits(&state, medium) || current.len() != state.cells as usize {
        return Err(OUT_OF_RULE);
    }
    if state.phase != Phase::Recovering {
        return Err(WRONG_PHASE);
    }
    let cells = table(medium, state.slots);
    let mut differing = cells.iter().zip(current).enumerate().filter(|(_, (a, b))| u64::from_le_bytes(**a) != **b);
    let lowest = differing.next().map(|(cell, _)| cell);
    let head_early = FAULT == fault::HEAD_EARLY && lowest.is_some() && differing.next().is_none();
    if let (Some(cell), false) = (lowest, head_early && state.h < state.l) {
        store_cell(medium, state.slots, cell, current[cell]);
        return Ok((state, Step::Cell(cell as u32)));
    }
    let phase = if head_early { Phase::Recovering } else { Phase::Idle };
    if state.h == state.l {
        return Ok((State { phase, ..state }, Step::Clean));
    }
    Head { cells: state.cells, slots: state.slots, h: state.l }.store(medium);
    Ok((State { h: state.l, phase, ..state }, Step::Head))
}

/// Opens a transaction; one that is open is aborted first.
#[inline]
pub fn begin<const FAULT: u8>(state: State, work: Work) -> Result<State, Refused> {
    judge(&state, || work.fits(&state))?;
    if state.phase == Phase::Run {
        judge_updates::<FAULT>(&state, work.waiting)?;
        judge_room(&state)?;
        return Ok(State { phase: Phase::Run, ..roll_back::<FAULT>(state, work) });
    }
    if state.l - state.h == state.slots {
        return Err(NO_ROOM.into());
    }
    if state.l == M {
        return Err(NO_NUMBER.into());
    }
    Ok(State { phase: Phase::Run, ..state })
}

#[inline]
pub fn read(state: State, cell: u32, current: &[u64]) -> Result<u64, Refusal> {
    judge(&state, || current.len() == state.cells as usize)?;
    judge_open(&state)?;
    judge_cell(&state, cell)?;
    Ok(current[cell as usize])
}

#[inline]
pub fn write(mut state: State, cell: u32, new: u64, mut work: Work) -> Result<State, Refusal> {
    judge(&state, || work.fits(&state))?;
    judge_open(&state)?;
    judge_cell(&state, cell)?;
    judge_room(&state)?;
    let old = work.current[cell as usize];
    append(&mut state, work.waiting, Entry::Update { cell, old, new });
    work.set(cell, new, state.l);
    Ok(state)
}

/// Commit's first step, in run: appends its entry and stores nothing.
#[inline(always)]
pub fn append_commit(mut state: State, waiting: &mut [u8]) -> State {
    append(&mut state, waiting, Entry::Commit);
    State { o: state.l, phase: Phase::Idle, ..state }
}

/// Ends the transaction: appends its commit, then takes force's step until every entry is stored. Answers the commit's number.
#[inline]
pub fn commit<const FAULT: u8>(state: State, medium: &mut [u8], waiting: &mut [u8]) -> Result<(State, u32), Refused> {
    judge(&state, || medium_fits(&state, medium) && waiting_fits(&state, waiting))?;
    if let fault::COMMIT_ALONE..=fault::OPEN_ROWS_JUDGED = FAULT {
        return fault::commit::<FAULT>(state, medium, waiting);
    }
    judge_open(&state)?;
    judge_waiting::<FAULT>(&state, waiting)?;
    let mut state = append_commit(state, waiting);
    while state.f < state.l {
        (state, _) = force_step::<FAULT>(state, medium, waiting)?;
    }
    Ok((state, state.l))
}

#[inline]
pub fn abort<const FAULT: u8>(state: State, work: Work) -> Result<State, Refused> {
    judge(&state, || work.fits(&state))?;
    if state.phase == Phase::Idle {
        return Ok(state);
    }
    judge_updates::<FAULT>(&state, work.waiting)?;
    Ok(roll_back::<FAULT>(state, work))
}

/// Stores the waiting row of f+1 and answers that number, or 0 where all are stored.
#[inline(always)]
pub(crate) fn force_step<const FAULT: u8>(
    state: State,
    medium: &mut [u8],
    waiting: &[u8],
) -> Result<(State, u32), Refused> {
    if state.f == state.l {
        return Ok((state, 0));
    }
    let number = state.f + 1;
    let row = waiting_row::<FAULT>(&state, waiting, number)?;
    store_row(medium, slot_of(number, state.slots), row);
    Ok((State { f: number, ..state }, number))
}

/// Stores the next entry and answers its number, or 0 where all are stored.
#[inline]
pub fn force<const FAULT: u8>(state: State, medium: &mut [u8], waiting: &[u8]) -> Result<(State, u32), Refused> {
    judge(&state, || medium_fits(&state, medium) && waiting_fits(&state, waiting))?;
    force_step::<FAULT>(state, medium, waiting)
}

/// Stores the cell's current value, if it changed since it was last stored; answers whether it did.
#[inline]
pub fn write_back<const FAULT: u8>(
    state: State,
    cell: u32,
    medium: &mut [u8],
    current: &[u64],
    first: &mut [u32],
    last: &[u32],
) -> Result<bool, Refusal> {
    let lengths = [current.len(), first.len(), last.len()];
    judge(&state, || medium_fits(&state, medium) && lengths == [state.cells as usize; 3])?;
    judge_cell(&state, cell)?;
    let at = cell as usize;
    if first[at] == 0 {
        return Ok(false);
    }
    let changed = if FAULT == fault::BACK_BY_FIRST { first[at] } else { last[at] };
    if changed > state.f {
        return Err(NOT_STORED);
    }
    store_cell(medium, state.slots, at, current[at]);
    first[at] = 0;
    Ok(true)
}

/// Drops the entries up to p.
#[inline]
pub fn cut<const FAULT: u8>(state: State, p: u32, medium: &mut [u8], first: &[u32]) -> Result<State, Refused> {
    judge(&state, || medium_fits(&state, medium) && first.len() == state.cells as usize)?;
    if p < state.h || p > state.f || p > state.o {
        return Err(NO_CUT.into());
    }
    if p != state.h {
        let row = &rows(medium, state.slots)[slot_of(p, state.slots)];
        let entry = match read_row(row, state.cells, p) {
            Ok(entry) => entry,
            Err(flaw) => return Err(bad_row::<FAULT>(WRONG_ROW, flaw, row, state.cells, p)),
        };
        if FAULT != fault::CUT_AT_UPDATE && matches!(entry, Entry::Update { .. }) {
            let row = (FAULT == fault::BESIDE_NINE).then_some((Flaw::NotAnUpdate, p));
            return Err(Refused { number: NO_CUT, row });
        }
    }
    if first.iter().any(|&n| 0 < n && n <= p) {
        return Err(NO_CUT.into());
    }
    Head { cells: state.cells, slots: state.slots, h: p }.store(medium);
    Ok(State { h: p, ..state })
}

/// Where an entry's 32 bytes stand.
#[derive(Clone, Copy, Debug, PartialEq, Eq)]
pub enum Place {
    Medium(usize),
    Waiting(usize),
}

#[inline]
pub fn look(state: State, n: u32, medium: &[u8], waiting: &[u8]) -> Result<Place, Refusal> {
    judge(&state, || medium_fits(&state, medium) && waiting_fits(&state, waiting))?;
    if n <= state.h || n > state.l {
        return Err(NO_SUCH_ENTRY);
    }
    let at = ROW * slot_of(n, state.slots);
    Ok(if n <= state.f { Place::Medium(HEAD + at) } else { Place::Waiting(at) })
}

/// Where the table begins; it is the rest of the medium.
#[inline]
pub fn table_view(medium: &[u8]) -> Result<usize, Refusal> {
    let head = Head::of(medium).ok_or(OUT_OF_RULE)?;
    Ok(table_at(head.slots))
}

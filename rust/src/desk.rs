//! A desk: everything that a keeper's calls are lent, and a call made on it.

use crate::keeper::{BadRow, Keeper};
use crate::layout::{medium_len, ROW};
use crate::rng::Rng;
use crate::state::{State, NUMBERS};
use std::fmt;

#[derive(Clone, Copy, Debug, PartialEq, Eq)]
pub enum Buffer {
    Medium,
    Current,
    First,
    Last,
    Waiting,
    State,
    /// A row of its own, for the calls that read and write one row.
    Row,
}

pub const BUFFERS: [Buffer; 7] =
    [Buffer::Medium, Buffer::Current, Buffer::First, Buffer::Last, Buffer::Waiting, Buffer::State, Buffer::Row];

/// Each buffer is this many elements longer than what is lent of it, so that a store past the end shows and a call can be
/// lent too much.
pub const GUARD: usize = 40;

#[derive(Clone, PartialEq, Eq)]
pub struct Desk {
    pub cells: u32,
    pub slots: u32,
    pub medium: Vec<u8>,
    pub current: Vec<u64>,
    pub first: Vec<u32>,
    pub last: Vec<u32>,
    pub waiting: Vec<u8>,
    pub state: Vec<u32>,
    pub row: Vec<u8>,
}

#[derive(Clone, Copy, Debug, PartialEq, Eq)]
pub enum Call {
    Format { cells: u32, slots: u32 },
    RecoveryStart,
    RecoveryStep,
    Begin,
    Read { cell: u32 },
    Write { cell: u32, value: u64 },
    Commit,
    Abort,
    Force,
    WriteBack { cell: u32 },
    Cut { p: u32 },
    Look { n: u32 },
    TableView,
    ReadRow { cells: u32, number: u32 },
    WriteRow { number: u32, kind: u32, cell: u32, old: u64, new: u64 },
}

/// What a call answers: its number, its value, the bad row it names and the fields of a row read.
#[derive(Clone, Copy, Debug, PartialEq, Eq)]
pub struct Answer {
    pub number: u32,
    pub value: u64,
    pub bad: BadRow,
    pub fields: [u64; 4],
}

impl fmt::Display for Answer {
    fn fmt(&self, out: &mut fmt::Formatter) -> fmt::Result {
        write!(out, "answer {}", self.number)?;
        if self.value != UNWRITTEN {
            write!(out, " value {}", self.value)?;
        }
        if self.bad == BadRow::default() {
            write!(out, ", no row named")?;
        } else if self.bad != UNNAMED {
            write!(out, ", reason {}, {}", self.bad.reason, self.bad)?;
        }
        if self.fields != [UNWRITTEN; 4] {
            write!(out, " fields {:?}", self.fields)?;
        }
        Ok(())
    }
}

/// What a value, a field or a named row is before the call, so that one left unwritten shows.
const UNWRITTEN: u64 = 0xa5a5_a5a5_a5a5_a5a5;
const UNNAMED: BadRow = BadRow { reason: UNWRITTEN as u32, entry: UNWRITTEN as u32 };

impl Desk {
    /// A desk for sizes in rule, all of it rubbish (of 0: zeros).
    pub fn new(cells: u32, slots: u32, rubbish: u64) -> Desk {
        let (n, waiting) = (cells as usize + GUARD, ROW * slots as usize + GUARD);
        let mut desk = Desk {
            cells,
            slots,
            medium: vec![0; medium_len(cells, slots) + GUARD],
            current: vec![0; n],
            first: vec![0; n],
            last: vec![0; n],
            waiting: vec![0; waiting],
            state: vec![0; NUMBERS + GUARD],
            row: vec![0; ROW + GUARD],
        };
        if rubbish != 0 {
            fill(&mut Rng::new(rubbish), &mut desk.medium);
            desk.lose_power(rubbish);
        }
        desk
    }

    /// All but the medium becomes rubbish.
    pub fn lose_power(&mut self, rubbish: u64) {
        let mut rng = Rng::new(!rubbish);
        fill(&mut rng, &mut self.waiting);
        self.current.fill_with(|| rng.word());
        // Small numbers are the treacherous ones: they look like entries.
        self.first.fill_with(|| rng.below(40) as u32);
        self.last.fill_with(|| rng.below(40) as u32);
        self.state.fill_with(|| rng.word() as u32);
    }

    /// Becomes like a desk of the same sizes.
    pub fn copy_from(&mut self, other: &Desk) {
        self.medium.copy_from_slice(&other.medium);
        self.current.copy_from_slice(&other.current);
        self.first.copy_from_slice(&other.first);
        self.last.copy_from_slice(&other.last);
        self.waiting.copy_from_slice(&other.waiting);
        self.state.copy_from_slice(&other.state);
        self.row.copy_from_slice(&other.row);
    }

    /// How much of a buffer a call should be lent.
    pub fn proper_len(&self, buffer: Buffer) -> usize {
        self.whole_len(buffer) - GUARD
    }

    pub fn whole_len(&self, buffer: Buffer) -> usize {
        match buffer {
            Buffer::Medium => self.medium.len(),
            Buffer::Current => self.current.len(),
            Buffer::First => self.first.len(),
            Buffer::Last => self.last.len(),
            Buffer::Waiting => self.waiting.len(),
            Buffer::State => self.state.len(),
            Buffer::Row => self.row.len(),
        }
    }

    pub fn state(&self) -> Option<State> {
        State::of(&self.state[..NUMBERS]).filter(State::is_sound)
    }

    pub fn lent_medium(&self) -> &[u8] {
        &self.medium[..self.medium.len() - GUARD]
    }

    /// One element of a buffer; places past its end are left alone.
    pub fn poke(&mut self, buffer: Buffer, at: usize, value: u64) {
        fn put<T>(buffer: &mut [T], at: usize, value: T) {
            if let Some(place) = buffer.get_mut(at) {
                *place = value;
            }
        }
        match buffer {
            Buffer::Medium => put(&mut self.medium, at, value as u8),
            Buffer::Current => put(&mut self.current, at, value),
            Buffer::First => put(&mut self.first, at, value as u32),
            Buffer::Last => put(&mut self.last, at, value as u32),
            Buffer::Waiting => put(&mut self.waiting, at, value as u8),
            Buffer::State => put(&mut self.state, at, value as u32),
            Buffer::Row => put(&mut self.row, at, value as u8),
        }
    }

    /// Makes the call, with another length lent of one buffer where `lend` says so.
    pub fn make(&mut self, keeper: &dyn Keeper, call: Call, lend: Option<(Buffer, usize)>) -> Answer {
        let len = |buffer, whole: usize| match lend {
            Some((other, len)) if other == buffer => len.min(whole),
            _ => whole - GUARD,
        };
        let medium_len = len(Buffer::Medium, self.medium.len());
        let medium = &mut self.medium[..medium_len];
        let current_len = len(Buffer::Current, self.current.len());
        let current = &mut self.current[..current_len];
        let first_len = len(Buffer::First, self.first.len());
        let first = &mut self.first[..first_len];
        let last_len = len(Buffer::Last, self.last.len());
        let last = &mut self.last[..last_len];
        let waiting_len = len(Buffer::Waiting, self.waiting.len());
        let waiting = &mut self.waiting[..waiting_len];
        let state_len = len(Buffer::State, self.state.len());
        let state = &mut self.state[..state_len];
        let row_len = len(Buffer::Row, self.row.len());
        let row = &mut self.row[..row_len];
        let (mut value, mut bad, mut fields) = (UNWRITTEN, UNNAMED, [UNWRITTEN; 4]);
        let number = match call {
            Call::Format { cells, slots } => keeper.format(medium, cells, slots),
            Call::RecoveryStart => keeper.recovery_start(medium, current, first, last, waiting, state, &mut bad),
            Call::RecoveryStep => keeper.recovery_step(state, medium, current, &mut value),
            Call::Begin => keeper.begin(state, current, first, last, waiting, &mut bad),
            Call::Read { cell } => keeper.read(state, cell, current, &mut value),
            Call::Write { cell, value } => keeper.write(state, cell, value, current, first, last, waiting),
            Call::Commit => keeper.commit(state, medium, waiting, &mut value, &mut bad),
            Call::Abort => keeper.abort(state, current, first, last, waiting, &mut bad),
            Call::Force => keeper.force(state, medium, waiting, &mut value, &mut bad),
            Call::WriteBack { cell } => keeper.write_back(state, cell, medium, current, first, last, &mut value),
            Call::Cut { p } => keeper.cut(state, p, medium, first, &mut bad),
            Call::Look { n } => keeper.look(state, n, medium, waiting, &mut value),
            Call::TableView => keeper.table_view(medium, &mut value),
            Call::ReadRow { cells, number } => keeper.read_row(row, cells, number, &mut fields),
            Call::WriteRow { number, kind, cell, old, new } => keeper.write_row(row, number, kind, cell, old, new),
        };
        Answer { number, value, bad, fields }
    }

    /// The first place where two desks differ, in words.
    pub fn difference(&self, other: &Desk) -> Option<String> {
        first_difference("medium byte", &self.medium, &other.medium)
            .or_else(|| first_difference("waiting byte", &self.waiting, &other.waiting))
            .or_else(|| first_difference("current value", &self.current, &other.current))
            .or_else(|| first_difference("first", &self.first, &other.first))
            .or_else(|| first_difference("last", &self.last, &other.last))
            .or_else(|| first_difference("state number", &self.state, &other.state))
            .or_else(|| first_difference("row byte", &self.row, &other.row))
    }
}

fn fill(rng: &mut Rng, bytes: &mut [u8]) {
    for chunk in bytes.chunks_mut(8) {
        let word = rng.word().to_le_bytes();
        chunk.copy_from_slice(&word[..chunk.len()]);
    }
}

fn first_difference<T: PartialEq + std::fmt::Debug>(name: &str, a: &[T], b: &[T]) -> Option<String> {
    if a == b {
        return None;
    }
    let at = a.iter().zip(b).position(|(x, y)| x != y)?;
    Some(format!("{name} {at}: {:?} against {:?}", a[at], b[at]))
}

//! The events that a history is made of. Each stands by itself, so that a history from which some are dropped is a history.

use crate::desk::{Buffer, Call, Desk};
use crate::layout::{Head, Row, HEAD, ROW};
use crate::state::NUMBERS;
use std::fmt;

#[derive(Clone, Debug, PartialEq)]
pub enum Event {
    Call {
        call: Call,
        lend: Option<(Buffer, usize)>,
    },
    PowerLoss {
        rubbish: u64,
    },
    /// The host hands this state instead of the one it was given.
    State([u32; NUMBERS]),
    /// A head in rule with this h.
    Head {
        h: u32,
    },
    /// A row of the medium or of the waiting rows, or the row buffer.
    Row {
        buffer: Buffer,
        slot: usize,
        row: Row,
    },
    Poke {
        buffer: Buffer,
        at: usize,
        value: u64,
    },
    /// The listing of a copy of the medium, all of it or its first bytes.
    Listing {
        len: usize,
    },
}

impl Event {
    pub fn call(call: Call) -> Event {
        Event::Call { call, lend: None }
    }

    /// Does to a desk what is no call.
    pub fn disturb(&self, desk: &mut Desk) {
        match self {
            Event::Call { .. } | Event::Listing { .. } => {}
            Event::PowerLoss { rubbish } => desk.lose_power(*rubbish),
            Event::State(numbers) => desk.state[..NUMBERS].copy_from_slice(numbers),
            Event::Head { h } => {
                Head { cells: desk.cells, slots: desk.slots, h: *h }.store(&mut desk.medium);
            }
            Event::Row { buffer, slot, row } => {
                let at = ROW * slot;
                let place = match buffer {
                    Buffer::Medium => &mut desk.medium[HEAD + at..],
                    Buffer::Waiting => &mut desk.waiting[at..],
                    _ => &mut desk.row[..],
                };
                place[..ROW].copy_from_slice(row);
            }
            Event::Poke { buffer, at, value } => desk.poke(*buffer, *at, *value),
        }
    }
}

impl fmt::Display for Event {
    fn fmt(&self, out: &mut fmt::Formatter) -> fmt::Result {
        match self {
            Event::Call { call, lend: None } => write!(out, "{call}"),
            Event::Call { call, lend: Some((buffer, len)) } => write!(out, "{call}, lent {len} of {buffer:?}"),
            Event::PowerLoss { rubbish } => write!(out, "power loss (rubbish {rubbish})"),
            Event::State([cells, slots, h, f, l, o, phase]) => {
                write!(out, "state: N={cells} C={slots} h={h} f={f} l={l} o={o} phase={phase}")
            }
            Event::Head { h } => write!(out, "head: h={h}"),
            Event::Row { buffer, slot, row } => {
                write!(out, "row: {buffer:?} slot {slot} becomes ")?;
                row.iter().try_for_each(|byte| write!(out, "{byte:02x}"))
            }
            Event::Poke { buffer, at, value } => write!(out, "poke: {buffer:?}[{at}] becomes {value}"),
            Event::Listing { len } => write!(out, "listing of the first {len} bytes"),
        }
    }
}

impl fmt::Display for Call {
    fn fmt(&self, out: &mut fmt::Formatter) -> fmt::Result {
        match self {
            Call::Format { cells, slots } => write!(out, "format N={cells} C={slots}"),
            Call::RecoveryStart => write!(out, "recovery start"),
            Call::RecoveryStep => write!(out, "recovery step"),
            Call::Begin => write!(out, "begin"),
            Call::Read { cell } => write!(out, "read cell {cell}"),
            Call::Write { cell, value } => {
                let (part, major, minor) = (*value as u32, value >> 32 & 0xffff, value >> 48);
                write!(out, "write cell {cell}, {value} (part {part} release {major}.{minor})")
            }
            Call::Commit => write!(out, "commit"),
            Call::Abort => write!(out, "abort"),
            Call::Force => write!(out, "force"),
            Call::WriteBack { cell } => write!(out, "write-back of cell {cell}"),
            Call::Cut { p } => write!(out, "cut to {p}"),
            Call::Look { n } => write!(out, "look at {n}"),
            Call::TableView => write!(out, "table view"),
            Call::ReadRow { cells, number } => write!(out, "read row, N={cells} number {number}"),
            Call::WriteRow { number, kind, cell, old, new } => {
                write!(out, "write row, number {number} kind {kind} cell {cell} old {old} new {new}")
            }
        }
    }
}

//! Directed histories: document 01's sessions, the largest sizes to their brim, the last entry numbers, every two flaws in one
//! row, commits over rows that read and rows that don't, and what four rows can hold around a hole.

use crate::desk::{Buffer, Call};
use crate::event::Event;
use crate::layout::{slot_of, write_row, Entry, Row, M, ROW};
use crate::play::Opening;
use crate::spoil::{plain_row, spoiled, FLAWS};
use crate::state::{Phase, State};

/// Part 40017 release 1.9.
pub const A: u64 = 40017 | 1 << 32 | 9 << 48;
/// Part 40052 release 1.10.
pub const B: u64 = 40052 | 1 << 32 | 10 << 48;

pub struct Directed {
    pub name: &'static str,
    pub opening: Opening,
    pub events: Vec<Event>,
}

impl Directed {
    /// A formatted medium, with h in its head, recovered.
    fn new(name: &'static str, cells: u32, slots: u32, h: u32) -> Directed {
        let opening = Opening { cells, slots, rubbish: 77 };
        let events = vec![Event::call(Call::Format { cells, slots }), Event::Head { h }];
        let mut directed = Directed { name, opening, events };
        directed.recover(2);
        directed
    }

    fn calls(&mut self, calls: impl IntoIterator<Item = Call>) -> &mut Directed {
        self.events.extend(calls.into_iter().map(Event::call));
        self
    }

    fn many(&mut self, times: usize, call: Call) -> &mut Directed {
        self.calls(std::iter::repeat_n(call, times))
    }

    /// Power loss and recovery, in so many steps.
    fn recover(&mut self, steps: usize) -> &mut Directed {
        let len = crate::layout::medium_len(self.opening.cells, self.opening.slots);
        self.events.push(Event::PowerLoss { rubbish: 5 });
        self.events.push(Event::Listing { len });
        self.calls([Call::RecoveryStart]).many(steps, Call::RecoveryStep)
    }
}

pub fn all() -> Vec<Directed> {
    let mut all = vec![
        sessions(),
        labels(),
        overwritten(),
        brim(),
        longest_abort(),
        last_numbers(),
        no_numbers(),
        broken_row(),
        flawed_rows(),
        other_sizes(),
        commits(),
    ];
    all.extend(holes());
    all
}

/// Cases 1 to 9 and 12, one after the other.
fn sessions() -> Directed {
    let mut d = Directed::new("the sessions of document 01", 2, 4, 0);
    d.calls([Call::Read { cell: 0 }, Call::Abort, Call::Begin, Call::Write { cell: 0, value: A }]);
    d.calls([Call::Write { cell: 1, value: B }, Call::Write { cell: 2, value: B }, Call::Read { cell: 2 }]);
    let write = |value| [Call::Begin, Call::Write { cell: 0, value }];
    d.recover(2).calls(write(A)).calls([Call::Force, Call::Commit, Call::Force]);
    d.calls(write(B)).calls([Call::Write { cell: 0, value: B }, Call::WriteBack { cell: 0 }, Call::Force]);
    d.calls([Call::WriteBack { cell: 0 }]).recover(3).recover(2);
    // The same from entry 4 on, to its commit.
    d.calls(write(A)).calls([Call::Commit, Call::WriteBack { cell: 0 }]).calls(write(B));
    d.calls([Call::Force, Call::WriteBack { cell: 0 }, Call::Commit, Call::Force, Call::Begin]);
    d.calls([6, 8, 5].map(|p| Call::Cut { p })).recover(2).recover(2);
    d.calls(write(A)).calls([Call::Commit, Call::Cut { p: 9 }, Call::WriteBack { cell: 0 }]);
    d.calls([1, 8, 9, 10].map(|n| Call::Look { n })).calls([7, 8, 9, 10].map(|p| Call::Cut { p }));
    d
}

/// Release 1.10 after 1.9, both stored: the table must end with 1.10, whatever the labels are as text.
fn labels() -> Directed {
    let mut d = Directed::new("1.10 after 1.9", 2, 4, 0);
    for value in [A, B] {
        d.calls([Call::Begin, Call::Write { cell: 0, value }, Call::Commit]);
    }
    d.recover(2);
    d
}

/// Case 10, and the same stored and recovered.
fn overwritten() -> Directed {
    let mut d = Directed::new("a cell written twice, aborted", 2, 4, 0);
    let twice = [Call::Begin, Call::Write { cell: 0, value: A }, Call::Write { cell: 0, value: B }];
    d.calls(twice).many(2, Call::Force).calls([Call::WriteBack { cell: 0 }, Call::Abort, Call::Force]);
    d.calls([Call::Cut { p: 3 }, Call::WriteBack { cell: 0 }, Call::Cut { p: 2 }, Call::Cut { p: 3 }]);
    d.calls(twice).many(2, Call::Force).calls([Call::WriteBack { cell: 0 }]).recover(3).recover(2);
    d
}

/// Every row and every cell of the largest medium, the rows stored by one commit.
fn brim() -> Directed {
    let mut d = Directed::new("the largest medium, full", 1024, 1024, 1000);
    d.calls([Call::Begin]).calls((0..1023).map(|cell| Call::Write { cell, value: A + cell as u64 }));
    d.calls([Call::Write { cell: 0, value: B }, Call::Begin, Call::Commit, Call::Begin]);
    d.calls([Call::Force]).calls((0..1024).step_by(3).map(|cell| Call::WriteBack { cell }));
    d.calls([Call::Cut { p: 2024 }]).recover(800).recover(2);
    d
}

fn longest_abort() -> Directed {
    let mut d = Directed::new("the longest abort", 3, 1024, 17);
    d.calls([Call::Begin]).calls((0..1023).map(|k| Call::Write { cell: k % 3, value: k as u64 }));
    d.many(1000, Call::Force).calls([0, 1, 2].map(|cell| Call::WriteBack { cell }));
    d.calls([Call::Begin, Call::Abort, Call::Look { n: 1041 }]).many(30, Call::Force).recover(6).recover(2);
    d
}

fn last_numbers() -> Directed {
    let mut d = Directed::new("the last entry numbers", 2, 4, M - 5);
    d.calls([Call::Begin, Call::Write { cell: 0, value: A }, Call::Begin]).many(2, Call::Force);
    d.calls([Call::WriteBack { cell: 0 }, Call::Cut { p: M - 3 }, Call::Write { cell: 1, value: B }]);
    d.calls([Call::Write { cell: 1, value: A }, Call::Write { cell: 1, value: A }, Call::Begin, Call::Commit]);
    d.calls([Call::Begin, Call::Force, Call::Look { n: M }, Call::Cut { p: M }]);
    d.calls([Call::WriteBack { cell: 0 }, Call::WriteBack { cell: 1 }, Call::Cut { p: M }, Call::Begin]).recover(2);
    d
}

/// Case 13.
fn no_numbers() -> Directed {
    let mut d = Directed::new("h = M", 2, 4, M);
    d.calls([Call::Begin, Call::Abort, Call::Force, Call::Cut { p: M }, Call::Look { n: M }, Call::Look { n: 0 }]);
    d
}

/// Case 14: each kind and number in the row after the head.
fn broken_row() -> Directed {
    let mut d = Directed::new("the row of entry h+1", 2, 4, 6);
    for kind in 0..=255 {
        let mut row = [0; ROW];
        write_row(&mut row, 7, Entry::Commit);
        row[4] = kind;
        d.events.push(Event::Row { buffer: Buffer::Medium, slot: slot_of(7, 4), row });
        d.recover(2);
    }
    d.events.push(Event::Row { buffer: Buffer::Medium, slot: slot_of(7, 4), row: [0; ROW] });
    d.recover(2);
    d
}

/// Each two flaws in one row, and the same two in the row after it, for every call that reads rows.
fn flawed_rows() -> Directed {
    let mut d = Directed::new("two flaws", 3, 8, 13);
    let state = State { cells: 3, slots: 8, h: 13, f: 15, l: 18, o: 15, phase: Phase::Run };
    let pairs = FLAWS.into_iter().flat_map(|a| FLAWS.map(|b| [a, b]));
    for (flaws, salt) in pairs.zip(0..) {
        let row = |number, bad: bool| if bad { spoiled(number, flaws, 3, salt) } else { plain_row(number) };
        let place = |buffer, number, row| Event::Row { buffer, slot: slot_of(number, 8), row };
        d.events.extend([14, 15, 16].map(|n| place(Buffer::Medium, n, row(n, n > 14))));
        d.events.extend([16, 17, 18].map(|n| place(Buffer::Waiting, n, row(n, n > 16))));
        d.events.extend([Event::Head { h: 13 }, Event::State(state.numbers())]);
        d.calls([Call::Cut { p: 15 }, Call::Abort, Call::Begin, Call::Commit]);
        d.events.push(Event::State(state.numbers()));
        d.events.push(place(Buffer::Waiting, 16, row(16, true)));
        d.calls([Call::Force, Call::Commit, Call::Abort, Call::RecoveryStart]);
        d.events.push(Event::Row { buffer: Buffer::Row, slot: 0, row: row(17, true) });
        d.calls([Call::ReadRow { cells: 3, number: 17 }]);
    }
    d
}

/// Case 11.
fn other_sizes() -> Directed {
    let mut d = Directed::new("sizes out of rule", 2, 4, 0);
    d.calls([(2, 3), (2, 1025), (0, 4), (1025, 4), (3, 4), (M, M)].map(|(cells, slots)| Call::Format { cells, slots }));
    d
}

/// Commits with entries 16 to 18 to be stored, for every choice of bad rows among these and that of 15, which is stored. The
/// open transaction has all four, some or none, or none is open.
pub fn commits() -> Directed {
    let mut d = Directed::new("commits over four waiting rows", 3, 8, 13);
    let opens = [14, 15, 16, 18].map(|o| (o, Phase::Run)).into_iter().chain([(18, Phase::Idle)]);
    let ways = FLAWS.into_iter().flat_map(|flaw| (0..16).map(move |way| (flaw, way)));
    for ((flaw, way), (o, phase)) in ways.flat_map(|way| opens.clone().map(move |open| (way, open))) {
        let state = State { cells: 3, slots: 8, h: 13, f: 15, l: 18, o, phase };
        for number in 15..20 {
            let (slot, stale) = (slot_of(number, 8), plain_row(number - 8));
            let row = match way >> (number - 15) & 1 {
                _ if number == 19 => stale,
                1 => spoiled(number, [flaw; 2], 3, number as u64),
                _ => plain_row(number),
            };
            d.events.push(Event::Row { buffer: Buffer::Medium, slot, row: stale });
            d.events.push(Event::Row { buffer: Buffer::Waiting, slot, row });
        }
        d.events.push(Event::State(state.numbers()));
        d.calls([Call::Commit, Call::Force]);
    }
    d
}

/// Every medium of four rows in which each row has its number or another, for heads far from M and near it.
pub fn holes() -> impl Iterator<Item = Directed> {
    [0, 6, M - 5, M - 4, M - 3, M - 2, M - 1, M].into_iter().map(|h| {
        let mut d = Directed::new("holes in four rows", 2, 4, h);
        for way in 0..WAYS.pow(4) {
            let place = |k: u32| (h.wrapping_add(k) % 4) as usize;
            let row = |k: u32| held(h.wrapping_add(k + 1), way / WAYS.pow(k) % WAYS);
            d.events.extend((0..4).map(|k| Event::Row { buffer: Buffer::Medium, slot: place(k), row: row(k) }));
            d.calls([Call::RecoveryStart]);
        }
        d
    })
}

/// How many ways `held` knows.
const WAYS: u32 = 6;

/// The row in the place of entry `number`, of four rows: as it should be, malformed, with no number, with the number of a turn
/// before or after, or with the next one's.
fn held(number: u32, way: u32) -> Row {
    let number =
        [number, number, 0, number.wrapping_sub(4), number.wrapping_add(4), number.wrapping_add(1)][way as usize];
    let mut row = plain_row(number);
    row[4] += 3 * u8::from(way == 1);
    row
}

//! What is wrong with a row (ticket 2): each reason, the order of any two in one row, the lowest of two bad rows, and none
//! beside any other answer.

use second::desk::{Answer, Buffer, Call, Desk};
use second::directed::A;
use second::event::Event;
use second::fault::Fault;
use second::keeper::{self, BadRow};
use second::layout::{read_row, slot_of, write_row, Entry, Flaw, Row, M, REASONS, ROW};
use second::spoil::{plain_row, spoiled, FLAWS};
use second::state::{Phase, State};

/// In run: entries 14 and 15 are stored, the updates 16 to 18 are open.
const OPEN: State = State { cells: 3, slots: 8, h: 13, f: 15, l: 18, o: 15, phase: Phase::Run };
const NONE: BadRow = BadRow { reason: 0, entry: 0 };

/// A desk in that state, with every row in place.
fn desk() -> Desk {
    let mut desk = Desk::new(3, 8, 0);
    made(&mut desk, Call::Format { cells: 3, slots: 8 });
    Event::Head { h: 13 }.disturb(&mut desk);
    Event::State(OPEN.numbers()).disturb(&mut desk);
    let mut commit = [0; ROW];
    write_row(&mut commit, 15, Entry::Commit);
    put(&mut desk, Buffer::Medium, 14, plain_row(14));
    put(&mut desk, Buffer::Medium, 15, commit);
    [16, 17, 18].into_iter().for_each(|n| put(&mut desk, Buffer::Waiting, n, plain_row(n)));
    desk
}

fn put(desk: &mut Desk, buffer: Buffer, number: u32, row: Row) {
    Event::Row { buffer, slot: slot_of(number, 8), row }.disturb(desk);
}

fn made(desk: &mut Desk, call: Call) -> Answer {
    desk.make(keeper::second(Fault::None), call, None)
}

/// The number that a call answers on a copy of the desk, and the row that it names.
fn named(desk: &Desk, call: Call) -> (u32, BadRow) {
    let Answer { number, bad, .. } = made(&mut desk.clone(), call);
    (number, bad)
}

/// A call that reads rows, its refusal, where it looks for which entry, and the reasons that it can give.
const CALLS: [(Call, u32, Buffer, u32, [Flaw; 2]); 6] = [
    (Call::RecoveryStart, 2, Buffer::Medium, 14, [Flaw::UnknownKind, Flaw::NewLeft]),
    (Call::Commit, 7, Buffer::Waiting, 16, [Flaw::OtherNumber, Flaw::NewLeft]),
    (Call::Force, 7, Buffer::Waiting, 16, [Flaw::OtherNumber, Flaw::NewLeft]),
    (Call::Cut { p: 15 }, 7, Buffer::Medium, 15, [Flaw::OtherNumber, Flaw::NewLeft]),
    (Call::Abort, 7, Buffer::Waiting, 16, [Flaw::OtherNumber, Flaw::NotAnUpdate]),
    (Call::Begin, 7, Buffer::Waiting, 16, [Flaw::OtherNumber, Flaw::NotAnUpdate]),
];

/// Every two flaws, in either order, each in several ways.
fn pairs() -> impl Iterator<Item = ([Flaw; 2], u64)> {
    let pairs = FLAWS.into_iter().flat_map(|a| FLAWS.map(|b| [a, b]));
    pairs.flat_map(|pair| (0..28).map(move |salt| (pair, salt)))
}

#[test]
fn a_row_alone_says_the_first_of_two_flaws() {
    for (flaws, salt) in pairs() {
        let (row, first) = (spoiled(7, flaws, 3, salt), flaws[0].min(flaws[1]));
        match first {
            Flaw::NotAnUpdate => assert!(matches!(read_row(&row, 3, 7), Ok(Entry::Commit | Entry::Abort))),
            _ => assert_eq!(read_row(&row, 3, 7), Err(first), "{flaws:?} {salt}"),
        }
    }
}

#[test]
fn a_row_alone_is_judged_length_first_and_number_next() {
    let row = spoiled(7, [Flaw::UnknownKind; 2], 3, 0);
    assert_eq!(read_row(&row[..31], 3, 7), Err(Flaw::TooShort));
    assert_eq!(read_row(&[], 3, 0), Err(Flaw::TooShort));
    assert_eq!(read_row(&[0; ROW], 3, 0), Err(Flaw::OtherNumber));
    assert_eq!(read_row(&row, 3, 8), Err(Flaw::OtherNumber));
    assert_eq!(read_row(&plain_row(M), 3, M), Ok(Entry::Update { cell: 0, old: 0, new: 0 }));
    let mut longer = plain_row(7).to_vec();
    longer.push(9);
    assert_eq!(read_row(&longer, 3, 7), Ok(Entry::Update { cell: 0, old: 0, new: 0 }));
}

#[test]
fn of_no_cells_every_end_is_out_of_range() {
    let row = spoiled(7, [Flaw::NotAnUpdate; 2], 3, 0);
    assert_eq!(read_row(&row, 0, 7), Err(Flaw::CellOutOfRange));
    assert_eq!(read_row(&spoiled(7, [Flaw::OldLeft; 2], 1, 0), 1, 7), Err(Flaw::OldLeft));
    assert_eq!(read_row(&spoiled(7, [Flaw::CellLeft; 2], 1, 0), 1, 7), Err(Flaw::CellOutOfRange));
}

#[test]
fn every_filler_byte_counts() {
    for at in [5, 6, 7, 12, 13, 14, 15] {
        for kind in [1, 2, 3] {
            let mut row = plain_row(7);
            (row[4], row[at]) = (kind, 128);
            assert_eq!(read_row(&row, 3, 7), Err(Flaw::FillerNotZero));
        }
    }
}

#[test]
fn the_fields_of_a_row_that_is_nothing_end_with_the_reason() {
    let mut desk = desk();
    let call = Call::ReadRow { cells: 3, number: 7 };
    for flaw in FLAWS {
        Event::Row { buffer: Buffer::Row, slot: 0, row: spoiled(7, [flaw; 2], 3, 1) }.disturb(&mut desk);
        let Answer { number, fields, .. } = made(&mut desk, call);
        match flaw {
            Flaw::NotAnUpdate => assert_eq!((number, fields), (3, [0; 4])),
            _ => assert_eq!((number, fields), (0, [0, 0, 0, flaw as u64])),
        }
    }
    let Answer { number, fields, .. } = desk.make(keeper::second(Fault::None), call, Some((Buffer::Row, 31)));
    assert_eq!((number, fields), (0, [0, 0, 0, 1]));
}

#[test]
fn every_call_hands_on_the_first_of_two_flaws() {
    for (call, refusal, buffer, entry, [least, most]) in CALLS {
        for (flaws, salt) in pairs() {
            let first = flaws[0].min(flaws[1]);
            if first < least || first > most {
                continue;
            }
            let mut desk = desk();
            put(&mut desk, buffer, entry, spoiled(entry, flaws, 3, salt));
            let wanted = (refusal, BadRow { reason: first as u32, entry });
            assert_eq!(named(&desk, call), wanted, "{call} {flaws:?} {salt}");
        }
    }
}

#[test]
fn the_lowest_bad_row_is_named() {
    let rows = [(17, Flaw::NotAnUpdate), (18, Flaw::OtherNumber)];
    let mut desk = desk();
    rows.iter().for_each(|&(n, flaw)| put(&mut desk, Buffer::Waiting, n, spoiled(n, [flaw; 2], 3, 0)));
    // Entry 17 has the first slot of the rows, entry 16 the last.
    for call in [Call::Abort, Call::Begin] {
        assert_eq!(named(&desk, call), (7, BadRow { reason: 9, entry: 17 }));
    }
    // An end among the rows is an entry: commit stores it.
    assert_eq!(named(&desk, Call::Commit), (7, BadRow { reason: 2, entry: 18 }));
    put(&mut desk, Buffer::Waiting, 16, spoiled(16, [Flaw::NewLeft; 2], 3, 0));
    for call in [Call::Abort, Call::Begin, Call::Commit, Call::Force] {
        assert_eq!(named(&desk, call), (7, BadRow { reason: 8, entry: 16 }));
    }
    for number in [16, 17] {
        put(&mut desk, Buffer::Medium, number, spoiled(number, [Flaw::CellOutOfRange; 2], 3, 1));
    }
    assert_eq!(named(&desk, Call::RecoveryStart), (2, BadRow { reason: 5, entry: 16 }));
}

#[test]
fn a_row_past_the_journal_is_not_judged() {
    let mut desk = desk();
    for number in [1, 9, 13, 18, 25] {
        put(&mut desk, Buffer::Medium, 17, spoiled(number, [Flaw::UnknownKind; 2], 3, 0));
        assert_eq!(named(&desk, Call::RecoveryStart), (0, NONE), "{number}");
    }
}

#[test]
fn no_row_is_named_beside_another_answer() {
    let mut desk = desk();
    for call in [Call::RecoveryStart, Call::Begin, Call::Commit, Call::Abort, Call::Force, Call::Cut { p: 15 }] {
        assert_eq!(named(&desk, call), (0, NONE), "{call}");
    }
    assert_eq!(named(&desk, Call::Cut { p: 14 }), (9, NONE));
    assert_eq!(named(&desk, Call::Cut { p: 16 }), (9, NONE));
    put(&mut desk, Buffer::Waiting, 16, [0; ROW]);
    put(&mut desk, Buffer::Medium, 15, [1; ROW]);
    desk.first[0] = 15;
    assert_eq!(named(&desk, Call::Cut { p: 15 }), (7, BadRow { reason: 2, entry: 15 }));
    assert_eq!(named(&desk, Call::Cut { p: 16 }), (9, NONE));
    Event::State(State { l: 21, ..OPEN }.numbers()).disturb(&mut desk);
    assert_eq!(named(&desk, Call::Begin), (1, NONE));
    Event::State(State { f: 18, o: 18, phase: Phase::Recovering, ..OPEN }.numbers()).disturb(&mut desk);
    for call in [Call::Begin, Call::Commit, Call::Abort, Call::Force, Call::Cut { p: 15 }] {
        assert_eq!(named(&desk, call), (10, NONE), "{call}");
    }
}

#[test]
fn both_are_written_whatever_is_lent() {
    for (call, ..) in CALLS {
        for len in [0, 6, 8] {
            let Answer { number, bad, .. } = desk().make(keeper::second(Fault::None), call, Some((Buffer::State, len)));
            assert_eq!((number, bad), (1, NONE), "{call} {len}");
        }
        for lend in [(Buffer::First, 2), (Buffer::Medium, 20), (Buffer::Waiting, 31)] {
            let bad = desk().make(keeper::second(Fault::None), call, Some(lend)).bad;
            assert_eq!(bad, NONE, "{call} {lend:?}");
        }
    }
}

#[test]
fn begin_judges_rows_before_room() {
    let mut desk = desk();
    let full = State { l: 20, ..OPEN };
    Event::State(full.numbers()).disturb(&mut desk);
    [19, 20].into_iter().for_each(|n| put(&mut desk, Buffer::Waiting, n, plain_row(n)));
    assert_eq!(named(&desk, Call::Begin), (5, NONE));
    put(&mut desk, Buffer::Waiting, 20, spoiled(20, [Flaw::FillerNotZero; 2], 3, 0));
    assert_eq!(named(&desk, Call::Begin), (7, BadRow { reason: 4, entry: 20 }));
}

#[test]
fn a_person_reads_the_entry_and_the_words() {
    assert_eq!(BadRow { reason: 5, entry: 3 }.to_string(), "entry 3: cell out of range");
    assert_eq!(BadRow { reason: 10, entry: 3 }.to_string(), "entry 3: hole");
    assert_eq!(REASONS.len() - 1, Flaw::Hole as usize);
}

#[test]
fn the_samples_say_what_stands_beside_them() {
    let samples = concat!(env!("CARGO_MANIFEST_DIR"), "/../samples");
    let mut reasons = Vec::new();
    for file in std::fs::read_dir(samples).unwrap().map(|file| file.unwrap().path()) {
        if file.extension().is_none_or(|kind| kind != "fault") {
            continue;
        }
        let medium = std::fs::read(file.with_extension("medium")).unwrap();
        let bad = recovery_names(&medium);
        assert_eq!(format!("{bad}\n"), std::fs::read_to_string(&file).unwrap(), "{file:?}");
        reasons.push(bad.reason);
    }
    reasons.sort();
    reasons.dedup();
    assert_eq!(reasons, [3, 4, 5, 6, 7, 8, 10]);
}

fn recovery_names(medium: &[u8]) -> BadRow {
    let sizes = [0, 4].map(|at| u32::from_le_bytes(medium[at..at + 4].try_into().unwrap()));
    let mut desk = Desk::new(sizes[0], sizes[1], A);
    desk.medium[..medium.len()].copy_from_slice(medium);
    let (number, bad) = named(&desk, Call::RecoveryStart);
    assert_eq!(number, 2);
    bad
}

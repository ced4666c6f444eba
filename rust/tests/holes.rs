//! A hole is not the end (ticket 5): which rows make one, which don't, and what goes before it.

use second::desk::{Answer, Buffer, Call, Desk};
use second::event::Event;
use second::fault::Fault;
use second::keeper::{self, BadRow};
use second::layout::{read_row, rows, slot_of, Flaw, Row, M};
use second::spoil::{plain_row, spoiled};
use second::state::{Phase, State};
use second::{directed, layout};

const NONE: BadRow = BadRow { reason: 0, entry: 0 };

/// A desk of two cells with rows in the places of these entries, each holding its number.
fn desk(slots: u32, h: u32, entries: &[u32]) -> Desk {
    let mut desk = Desk::new(2, slots, 0);
    desk.make(keeper::second(Fault::None), Call::Format { cells: 2, slots }, None);
    Event::Head { h }.disturb(&mut desk);
    entries.iter().for_each(|&n| put(&mut desk, n, plain_row(n)));
    desk
}

/// Puts a row into the place of an entry.
fn put(desk: &mut Desk, entry: u32, row: Row) {
    Event::Row { buffer: Buffer::Medium, slot: slot_of(entry, desk.slots), row }.disturb(desk);
}

fn malformed(number: u32) -> Row {
    spoiled(number, [Flaw::UnknownKind; 2], 2, 0)
}

/// What recovery start answers and names, on a copy of the desk.
fn start(desk: &Desk) -> (u32, BadRow) {
    let mut desk = desk.clone();
    let Answer { number, bad, .. } = desk.make(keeper::second(Fault::None), Call::RecoveryStart, None);
    assert_eq!(number == 0, desk.state().is_some());
    assert!(number == 0 || desk.state[..7] == [0; 7]);
    (number, bad)
}

/// The last entry of a journal that is accepted.
fn end(desk: &Desk) -> u32 {
    assert_eq!(start(desk), (0, NONE));
    let mut desk = desk.clone();
    desk.make(keeper::second(Fault::None), Call::RecoveryStart, None);
    let State { f, l, o, phase, .. } = desk.state().unwrap();
    assert_eq!((f, f, phase), (l, o, Phase::Recovering));
    f
}

fn hole(entry: u32) -> (u32, BadRow) {
    (2, BadRow { reason: 10, entry })
}

fn unknown_kind(entry: u32) -> (u32, BadRow) {
    (2, BadRow { reason: 3, entry })
}

#[test]
fn the_first_number_missing_is_named() {
    assert_eq!(start(&desk(8, 5, &[6, 7, 9, 10])), hole(8));
    assert_eq!(start(&desk(8, 5, &[7, 9, 10])), hole(6));
    assert_eq!(start(&desk(8, 5, &[6, 10, 12])), hole(7));
}

#[test]
fn the_last_place_counts() {
    for slots in [4, 5, 1024] {
        for h in [0, 5, 6, M - slots - 1, M - slots] {
            for n in [h + 1, h + 2, h + slots - 1] {
                let before: Vec<u32> = (h + 1..n).collect();
                assert_eq!(end(&desk(slots, h, &before)), n - 1);
                assert_eq!(start(&desk(slots, h, &[&before[..], &[h + slots]].concat())), hole(n), "{slots} {h} {n}");
            }
        }
    }
}

#[test]
fn numbers_end_with_m() {
    assert_eq!(start(&desk(8, M - 4, &[M - 3, M - 1])), hole(M - 2));
    assert_eq!(start(&desk(8, M - 4, &[M - 3, M - 2, M])), hole(M - 1));
    assert_eq!(end(&desk(8, M - 4, &[M - 3, M - 2, M - 1])), M - 1);
    assert_eq!(end(&desk(8, M - 4, &[M - 3, M - 2, M - 1, M])), M);
    // What would follow M, as 1, 2 and 3 or as no number: four rows have these in their own places too.
    for (slots, h) in [(8, M - 4), (4, M - 2), (4, M - 1), (4, M)] {
        let mut desk = desk(slots, h, &[]);
        assert_eq!(end(&desk), h);
        (1..4).for_each(|k| put(&mut desk, k, plain_row(k)));
        assert_eq!(end(&desk), h);
    }
}

#[test]
fn with_h_m_nothing_is_read() {
    let mut desk = desk(4, M, &[M, M - 1, M - 2]);
    assert_eq!(end(&desk), M);
    put(&mut desk, 1, malformed(1));
    put(&mut desk, M, malformed(M));
    assert_eq!(end(&desk), M);
}

#[test]
fn a_later_number_in_another_place_does_not_count() {
    let mut desk = desk(4, 5, &[6]);
    for (place, number) in [(8, 9), (9, 8), (7, 8), (7, 9), (8, 7), (9, 7)] {
        let mut worn = desk.clone();
        put(&mut worn, place, plain_row(number));
        assert_eq!(end(&worn), 6, "{number} in the place of {place}");
    }
    put(&mut desk, 8, plain_row(9));
    put(&mut desk, 9, plain_row(9));
    assert_eq!(start(&desk), hole(7));
}

#[test]
fn numbers_of_other_turns_do_not_count() {
    // Before: 2 to 5; after: 10 to 13, of which 10 is h+C+1.
    for turn in [2u32, 10] {
        for kept in 0..4 {
            let mut desk = desk(4, 5, &[]);
            (0..4).for_each(|k| put(&mut desk, turn + k, plain_row(turn + k)));
            (0..kept).for_each(|k| put(&mut desk, 6 + k, plain_row(6 + k)));
            assert_eq!(end(&desk), 5 + kept);
        }
    }
}

#[test]
fn a_malformed_row_before_the_hole_goes_first() {
    let mut desk = desk(8, 5, &[6, 7, 9]);
    put(&mut desk, 7, malformed(7));
    assert_eq!(start(&desk), unknown_kind(7));
    put(&mut desk, 6, malformed(6));
    assert_eq!(start(&desk), unknown_kind(6));
    put(&mut desk, 6, malformed(0));
    assert_eq!(start(&desk), hole(6));
}

#[test]
fn a_malformed_row_after_the_hole_only_holds_its_number() {
    let mut desk = desk(8, 5, &[6]);
    put(&mut desk, 9, malformed(9));
    assert_eq!(start(&desk), hole(7));
    put(&mut desk, 8, malformed(8));
    put(&mut desk, 10, plain_row(10));
    assert_eq!(start(&desk), hole(7));
    put(&mut desk, 7, malformed(7));
    assert_eq!(start(&desk), unknown_kind(7));
}

#[test]
fn a_wrong_length_goes_before_the_hole() {
    let mut desk = desk(4, 0, &[2]);
    for lend in [(Buffer::First, 1), (Buffer::Waiting, 127), (Buffer::Medium, 175), (Buffer::State, 6)] {
        let Answer { number, bad, .. } = desk.make(keeper::second(Fault::None), Call::RecoveryStart, Some(lend));
        assert_eq!((number, bad), (1, NONE), "{lend:?}");
    }
}

/// Ticket 5's sentence, number by number in 64 bits.
fn wanted(desk: &Desk) -> (u32, BadRow) {
    let layout::Head { cells, slots, h } = layout::Head::of(desk.lent_medium()).unwrap();
    let rows = rows(desk.lent_medium(), slots);
    let place = |n: u64| &rows[((n - 1) % slots as u64) as usize];
    let holds = |n: &u64| layout::number_in(place(*n)) as u64 == *n;
    let (low, high) = (h as u64 + 1, (h as u64 + slots as u64).min(M as u64));
    let first = (low..=high).find(|n| !holds(n));
    let malformed = |n: &u64| read_row(place(*n), cells, *n as u32).err().map(|flaw| (flaw as u32, *n as u32));
    if let Some((reason, entry)) = (low..first.unwrap_or(high + 1)).find_map(|n| malformed(&n)) {
        return (2, BadRow { reason, entry });
    }
    match first {
        Some(n) if (n + 1..=high).any(|later| holds(&later)) => hole(n as u32),
        _ => (0, NONE),
    }
}

#[test]
fn every_way_to_fill_four_rows() {
    let mut met = [0; 3];
    for directed::Directed { opening, events, .. } in directed::holes() {
        let mut desk = Desk::new(opening.cells, opening.slots, opening.rubbish);
        for event in events {
            event.disturb(&mut desk);
            match event {
                Event::Call { call: Call::RecoveryStart, .. } => {
                    let found = start(&desk);
                    assert_eq!(found, wanted(&desk));
                    met[(found.1.reason > 0) as usize + (found.1.reason == 10) as usize] += 1;
                }
                Event::Call { call, .. } => drop(desk.make(keeper::second(Fault::None), call, None)),
                _ => {}
            }
        }
    }
    assert!(met.iter().all(|&starts| starts > 1000), "{met:?}");
}

//! Commit that means it (ticket 4): its refusals in order, what it stores, the steps that it is made of, and power lost between
//! any two of them.

use second::desk::{Answer, Buffer, Call, Desk};
use second::draw::Draw;
use second::event::Event;
use second::fault::{self, Fault};
use second::keeper::{self, BadRow};
use second::layout::{read_row, rows, slot_of, table, write_row, Entry, Flaw, Row, HEAD, M, ROW};
use second::rng::Rng;
use second::second::{append_commit, force};
use second::spoil::{plain_row, spoiled, FLAWS};
use second::state::{Phase, State};
use second::tool;

/// In run: entry 14 is stored, the update 15 and the abort 16 wait, and so do the updates 17 and 18 of the open transaction.
const OPEN: State = State { cells: 3, slots: 8, h: 13, f: 14, l: 18, o: 16, phase: Phase::Run };
const NONE: BadRow = BadRow { reason: 0, entry: 0 };

/// A desk in a state, with every waiting row in place and none on the medium.
fn desk(state: State) -> Desk {
    let State { cells, slots, h, l, .. } = state;
    let mut desk = Desk::new(cells, slots, 77);
    desk.make(keeper::second(Fault::None), Call::Format { cells, slots }, None);
    Event::Head { h }.disturb(&mut desk);
    Event::State(state.numbers()).disturb(&mut desk);
    (h + 1..=l).for_each(|n| put(&mut desk, Buffer::Waiting, n, plain_row(n)));
    desk
}

/// The desk of `OPEN`.
fn open() -> Desk {
    let mut desk = desk(OPEN);
    put(&mut desk, Buffer::Medium, 14, plain_row(14));
    put(&mut desk, Buffer::Waiting, 16, end(16, Entry::Abort));
    desk
}

/// Puts a row into the place of an entry.
fn put(desk: &mut Desk, buffer: Buffer, entry: u32, row: Row) {
    Event::Row { buffer, slot: slot_of(entry, desk.slots), row }.disturb(desk);
}

fn end(number: u32, entry: Entry) -> Row {
    let mut row = [0; ROW];
    write_row(&mut row, number, entry);
    row
}

fn bad(number: u32, flaw: Flaw) -> Row {
    spoiled(number, [flaw; 2], 3, 1)
}

fn made(desk: &mut Desk, call: Call) -> Answer {
    desk.make(keeper::second(Fault::None), call, None)
}

/// A commit: its number, its value and the row that it names. A refused one changes nothing.
fn commit(desk: &mut Desk, lend: Option<(Buffer, usize)>) -> (u32, u64, BadRow) {
    let before = desk.clone();
    let Answer { number, value, bad, .. } = desk.make(keeper::second(Fault::None), Call::Commit, lend);
    assert!(number == 0 || before.difference(desk).is_none() && value == 0);
    (number, value, bad)
}

fn refused(number: u32) -> (u32, u64, BadRow) {
    (number, 0, NONE)
}

fn wrong_row(flaw: Flaw, entry: u32) -> (u32, u64, BadRow) {
    (7, 0, BadRow { reason: flaw as u32, entry })
}

fn row_of(desk: &Desk, buffer: Buffer, entry: u32) -> Row {
    let at = ROW * slot_of(entry, desk.slots);
    let from = if buffer == Buffer::Medium { &desk.medium[HEAD + at..] } else { &desk.waiting[at..] };
    *from.first_chunk().unwrap()
}

#[test]
fn the_refusals_in_order() {
    let recovering = State { f: 18, o: 18, phase: Phase::Recovering, ..OPEN };
    let idle = State { o: 18, phase: Phase::Idle, ..OPEN };
    let (medium, waiting) = (HEAD + 8 * ROW + 3 * 8, 8 * ROW);
    let wrong = [(Buffer::Medium, medium), (Buffer::Waiting, waiting), (Buffer::State, 7)]
        .into_iter()
        .flat_map(|(buffer, len)| [0, len - 1, len + 1].map(|len| (buffer, len)));
    // In each of them the row of 15 is bad, which only the open transaction's commit says.
    for (state, answer) in [(recovering, refused(10)), (idle, refused(3)), (OPEN, wrong_row(Flaw::UnknownKind, 15))] {
        let mut desk = desk(state);
        put(&mut desk, Buffer::Waiting, 15, bad(15, Flaw::UnknownKind));
        wrong.clone().for_each(|lend| assert_eq!(commit(&mut desk, Some(lend)), refused(1), "{state:?} {lend:?}"));
        assert_eq!(commit(&mut desk, None), answer, "{state:?}");
        for unsound in [State { f: 12, ..state }, State { o: 19, ..state }, State { slots: 3, ..state }] {
            Event::State(unsound.numbers()).disturb(&mut desk);
            assert_eq!(commit(&mut desk, None), refused(1), "{unsound:?}");
        }
    }
    // What it isn't lent is not judged.
    for buffer in [Buffer::Current, Buffer::First, Buffer::Last] {
        assert_eq!(commit(&mut open(), Some((buffer, 0))), (0, 19, NONE));
    }
}

#[test]
fn the_lowest_bad_row_is_named_whatever_is_wrong_with_it() {
    for flaw in FLAWS.into_iter().filter(|flaw| *flaw != Flaw::NotAnUpdate) {
        for way in 1..16 {
            let mut desk = open();
            let flawed: Vec<u32> = (15..19).filter(|n| way >> (n - 15) & 1 == 1).collect();
            flawed.iter().for_each(|&n| put(&mut desk, Buffer::Waiting, n, bad(n, flaw)));
            assert_eq!(commit(&mut desk, None), wrong_row(flaw, flawed[0]), "{flawed:?}");
        }
    }
}

#[test]
fn only_the_rows_to_be_stored_are_judged() {
    // That of 14 is stored, and of the open transaction besides; its own row, that of 19, and two more hold anything.
    let mut desk = desk(State { o: 13, ..OPEN });
    for number in [14, 19, 20, 21] {
        put(&mut desk, Buffer::Waiting, number, [0xee; ROW]);
    }
    assert_eq!(commit(&mut desk, None), (0, 19, NONE));
    // An end in an update's place is an entry.
    for entry in [Entry::Commit, Entry::Abort] {
        let mut desk = open();
        put(&mut desk, Buffer::Waiting, 17, end(17, entry));
        assert_eq!(commit(&mut desk, None), (0, 19, NONE));
        assert_eq!(row_of(&desk, Buffer::Medium, 17), end(17, entry));
    }
}

#[test]
fn a_row_put_right_lets_the_commit_through() {
    let mut desk = open();
    let right = row_of(&desk, Buffer::Waiting, 18);
    put(&mut desk, Buffer::Waiting, 18, bad(18, Flaw::FillerNotZero));
    assert_eq!(commit(&mut desk, None), wrong_row(Flaw::FillerNotZero, 18));
    put(&mut desk, Buffer::Waiting, 18, right);
    assert_eq!(commit(&mut desk, None), (0, 19, NONE));
}

#[test]
fn all_that_waits_is_stored_and_no_more() {
    let mut desk = open();
    let mut wanted = desk.clone();
    assert_eq!(commit(&mut desk, None), (0, 19, NONE));
    put(&mut wanted, Buffer::Waiting, 19, end(19, Entry::Commit));
    (15..20).for_each(|n| {
        let row = row_of(&wanted, Buffer::Waiting, n);
        put(&mut wanted, Buffer::Medium, n, row);
    });
    Event::State(State { f: 19, l: 19, o: 19, phase: Phase::Idle, ..OPEN }.numbers()).disturb(&mut wanted);
    assert_eq!(wanted.difference(&desk), None);
    // Nothing is left to force, and all of it is looked at on the medium.
    let forced = made(&mut desk, Call::Force);
    assert_eq!((forced.number, forced.value, wanted.difference(&desk)), (0, 0, None));
    assert_eq!(made(&mut desk, Call::Look { n: 19 }).value, (HEAD + ROW * slot_of(19, 8)) as u64);
}

#[test]
fn with_all_entries_stored_before_it_stores_its_own() {
    for o in [16, 18] {
        let mut desk = desk(State { f: 18, o, ..OPEN });
        let mut wanted = desk.medium.clone();
        assert_eq!(commit(&mut desk, None), (0, 19, NONE));
        wanted[HEAD + ROW * slot_of(19, 8)..][..ROW].copy_from_slice(&end(19, Entry::Commit));
        assert!(desk.medium == wanted);
    }
}

#[test]
fn to_the_last_number_and_the_last_row() {
    let full = State { cells: 2, slots: 1024, h: M - 1024, f: M - 1024, l: M - 1, o: M - 1024, phase: Phase::Run };
    let last = State { f: M - 1, o: M - 1, ..full };
    for state in [full, last] {
        let mut desk = desk(state);
        assert_eq!(commit(&mut desk, None), (0, M as u64, NONE));
        assert_eq!(desk.state(), Some(State { f: M, l: M, o: M, phase: Phase::Idle, ..state }));
        assert_eq!(made(&mut desk, Call::Force).value, 0);
        let stored = rows(desk.lent_medium(), 1024);
        (state.f..M).for_each(|n| assert!(read_row(&stored[slot_of(n + 1, 1024)], 2, n + 1).is_ok()));
    }
}

// ---- the steps

/// What a commit's steps leave.
struct Steps {
    /// The media after its appending and after each of its stores.
    media: Vec<Vec<u8>>,
    state: State,
    waiting: Vec<u8>,
}

/// A commit, accepted on this desk, step by step: appending, then force's step until it stores nothing.
fn steps(desk: &Desk) -> Steps {
    let (mut medium, open) = (desk.lent_medium().to_vec(), desk.state().unwrap());
    let mut waiting = desk.waiting[..desk.proper_len(Buffer::Waiting)].to_vec();
    let mut state = append_commit(open, &mut waiting);
    assert_eq!((state.f, state.l, state.o, state.phase), (open.f, open.l + 1, open.l + 1, Phase::Idle));
    let mut media = vec![medium.clone()];
    loop {
        let (next, number) = force::<{ fault::NONE }>(state, &mut medium, &waiting).unwrap();
        if number == 0 {
            return Steps { media, state, waiting };
        }
        assert_eq!((number, next), (state.f + 1, State { f: number, ..state }));
        media.push(medium.clone());
        state = next;
    }
}

/// A commit is its steps in turn: from the desk before it to the one after it.
fn judge_steps(before: &Desk, after: &Desk, value: u64) -> Steps {
    let steps = steps(before);
    assert!(steps.media.last().unwrap() == after.lent_medium());
    assert!(steps.waiting == after.waiting[..steps.waiting.len()]);
    assert_eq!((Some(steps.state), steps.state.f, steps.state.l as u64), (after.state(), steps.state.l, value));
    // Before its own row is stored, it leaves what forces in the open transaction leave.
    let (mut medium, mut state) = (before.lent_medium().to_vec(), before.state().unwrap());
    let waiting = &before.waiting[..steps.waiting.len()];
    for left in &steps.media[..steps.media.len() - 1] {
        assert!(*left == medium);
        (state, _) = force::<{ fault::NONE }>(state, &mut medium, waiting).unwrap();
    }
    steps
}

#[test]
fn a_commit_is_its_steps_in_turn() {
    let keeper = keeper::second(Fault::None);
    let mut met = [0; 3];
    for k in 0..300 {
        let mut draw = Draw::new(Rng::of_run(2, k));
        let mut desk = Desk::new(draw.opening.cells, draw.opening.slots, draw.opening.rubbish);
        while let Some(event) = draw.next(&desk) {
            event.disturb(&mut desk);
            let Event::Call { call, lend } = event else {
                continue;
            };
            let before = (call == Call::Commit).then(|| desk.clone());
            let answer = desk.make(keeper, call, lend);
            let Some(before) = before else {
                continue;
            };
            if answer.number == 0 {
                let stores = judge_steps(&before, &desk, answer.value).media.len() - 1;
                met[(stores > 1) as usize] += 1;
            } else {
                assert_eq!(before.difference(&desk), None);
                met[2] += 1;
            }
        }
    }
    assert!(met.iter().all(|&commits| commits > 500), "{met:?}");
}

// ---- power lost

/// The table's values.
fn values(medium: &[u8], slots: u32) -> Vec<u64> {
    table(medium, slots).iter().map(|bytes| u64::from_le_bytes(*bytes)).collect()
}

/// The table that recovery leaves.
fn recovered(medium: &[u8], slots: u32) -> Vec<u64> {
    values(&tool::recovered(medium).unwrap(), slots)
}

/// What a host calls next.
fn host_call(desk: &Desk, rng: &mut Rng) -> Call {
    let Some(state) = desk.state() else {
        return Call::RecoveryStart;
    };
    let cell = rng.between(0, desk.cells - 1);
    match (state.phase, rng.below(100)) {
        (Phase::Recovering, _) => Call::RecoveryStep,
        (_, 0..15) => Call::Force,
        (_, 15..30) => Call::WriteBack { cell },
        (_, 30..38) => Call::Cut { p: state.f.min(state.o) },
        (Phase::Idle, _) => Call::Begin,
        (Phase::Run, 38..75) => Call::Write { cell, value: rng.below(9) },
        (Phase::Run, 75..90) => Call::Commit,
        (Phase::Run, 90..96) => Call::Abort,
        (Phase::Run, _) => Call::Begin,
    }
}

#[test]
fn power_lost_within_a_commit_leaves_all_of_it_or_nothing() {
    // Losses before the first store, after some and after the last.
    let mut met = [0; 3];
    for k in 0..400 {
        let mut rng = Rng::of_run(4, k);
        let (cells, slots) = (rng.between(1, 5), rng.between(4, 14));
        let mut desk = Desk::new(cells, slots, rng.word());
        made(&mut desk, Call::Format { cells, slots });
        let mut durable = vec![0; cells as usize];
        for _ in 0..300 {
            if rng.below(40) == 0 {
                assert_eq!(recovered(desk.lent_medium(), slots), durable);
                desk.lose_power(rng.word());
            }
            let call = host_call(&desk, &mut rng);
            let before = (call == Call::Commit).then(|| desk.clone());
            let answer = made(&mut desk, call);
            let Some(before) = before else {
                continue;
            };
            assert_eq!(answer.number, 0);
            let media = judge_steps(&before, &desk, answer.value).media;
            let committed = before.current[..cells as usize].to_vec();
            let last = media.len() - 1;
            for (stores, medium) in media.iter().enumerate() {
                let whole = stores == last;
                assert_eq!(recovered(medium, slots), if whole { &committed[..] } else { &durable[..] });
                met[if whole { 2 } else { (stores > 0) as usize }] += 1;
            }
            // The history goes on after the call, or from a power loss in it.
            let stores = if rng.percent(30) { rng.index(media.len()) } else { last };
            if stores == last {
                durable = committed;
            } else {
                desk.medium[..media[stores].len()].copy_from_slice(&media[stores]);
                desk.lose_power(rng.word());
            }
        }
    }
    assert!(met.iter().all(|&losses| losses > 1000), "{met:?}");
}

#[test]
fn its_own_row_stored_first_would_leave_a_hole() {
    let mut desk = open();
    assert_eq!(commit(&mut desk.clone(), None), (0, 19, NONE));
    put(&mut desk, Buffer::Medium, 19, end(19, Entry::Commit));
    let start = made(&mut desk, Call::RecoveryStart);
    assert_eq!((start.number, start.bad), (2, BadRow { reason: Flaw::Hole as u32, entry: 15 }));
}

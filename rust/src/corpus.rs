//! Media of random histories, as a power loss in them leaves the medium. Recovery accepts most of them.

use crate::desk::{Call, Desk};
use crate::draw::Draw;
use crate::event::Event;
use crate::fault::Fault;
use crate::keeper;
use crate::layout::{HEAD, LARGEST, LEAST_SLOTS, M, ROW};
use crate::rng::Rng;
use crate::state::Phase;

/// Medium `k` under a seed. Every other one comes from the histories that keepers are compared with.
pub fn medium(seed: u64, k: u64) -> Vec<u8> {
    let mut rng = Rng::of_run(!seed, k);
    let mut medium = match k % 2 {
        0 => of_work(&mut rng),
        _ => of_history(Draw::new(Rng::of_run(seed, k)), &mut rng),
    };
    if rng.percent(8) {
        damage(&mut medium, &mut rng);
    }
    medium
}

/// The medium at a power loss in the history, or at its end.
fn of_history(mut draw: Draw, rng: &mut Rng) -> Vec<u8> {
    let keeper = keeper::second(Fault::None);
    let mut desk = Desk::new(draw.opening.cells, draw.opening.slots, draw.opening.rubbish);
    while !draw.is_over() {
        let Some(event) = draw.next(&desk) else {
            break;
        };
        if matches!(event, Event::PowerLoss { .. }) && rng.percent(40) {
            break;
        }
        event.disturb(&mut desk);
        if let Event::Call { call, lend } = event {
            desk.make(keeper, call, lend);
        }
    }
    desk.lent_medium().to_vec()
}

/// A host at work with many parts and releases, whose journal is seldom cut: long journals and well-filled tables.
fn of_work(rng: &mut Rng) -> Vec<u8> {
    let keeper = keeper::second(Fault::None);
    let (cells, slots) = (rng.between(1, 48), rng.between(LEAST_SLOTS, 96));
    let mut desk = Desk::new(cells, slots, 0);
    desk.make(keeper, Call::Format { cells, slots }, None);
    if rng.percent(15) {
        Event::Head { h: M - rng.between(0, 3 * slots) }.disturb(&mut desk);
    }
    for _ in 0..rng.between(slots, 12 * slots) {
        let call = call_at_work(&desk, rng);
        desk.make(keeper, call, None);
    }
    desk.lent_medium().to_vec()
}

fn call_at_work(desk: &Desk, rng: &mut Rng) -> Call {
    let Some(state) = desk.state() else {
        return Call::RecoveryStart;
    };
    if rng.below(3 * desk.slots as u64) == 0 {
        return Call::RecoveryStart;
    }
    let cell = rng.between(0, desk.cells - 1);
    match (state.phase, rng.below(100)) {
        (Phase::Recovering, _) => Call::RecoveryStep,
        (_, 0..35) => Call::Force,
        (_, 35..41) => Call::WriteBack { cell },
        (_, 41) => Call::Cut { p: state.f.min(state.o) },
        (Phase::Idle, _) => Call::Begin,
        (Phase::Run, 42..87) => Call::Write { cell, value: value(rng) },
        (Phase::Run, 87..94) => Call::Commit,
        (Phase::Run, _) => Call::Abort,
    }
}

/// A part, of few numbers and mostly of few releases, so that equals are met; now and then an empty cell.
fn value(rng: &mut Rng) -> u64 {
    let part = rng.pick(&[0, 40017, 40018, 40052, 40053, M]) as u64;
    let (major, minor) = match rng.below(10) {
        0 => (rng.below(1 << 16), rng.below(1 << 16)),
        _ => (rng.pick(&[0, 1, 2, 65535]), rng.pick(&[0, 9, 10, 65535])),
    };
    part | major << 32 | minor << 48
}

/// Another length, another byte, or a row that has lost its number.
fn damage(medium: &mut Vec<u8>, rng: &mut Rng) {
    let len = medium.len();
    match rng.below(8) {
        0 => medium.truncate(rng.index(len)),
        1 => medium.resize(len + 1 + rng.index(64), 0),
        2 => medium.resize(LARGEST + 1 + rng.index(64), 0),
        3 => medium[rng.index(HEAD)] ^= 1 << rng.below(8),
        4..6 => medium[HEAD + ROW * rng.index(4)..][..4].fill(0),
        _ => medium[HEAD + rng.index(4 * ROW)] ^= 1 << rng.below(8),
    }
}

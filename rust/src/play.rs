//! Two keepers at two desks, led through the same history. After every call both answers and every byte of both desks must be
//! equal, a refusal must have changed nothing and name a bad row only where it may, a call must have made one store at most, a
//! commit those of the rows that it had to store, recovery must not refuse the journal of a clean history, and the ledger must
//! agree.

use crate::desk::{Answer, Buffer, Call, Desk};
use crate::event::Event;
use crate::hits::{Hits, Made};
use crate::keeper::{BadRow, Keeper};
use crate::layout::{read_row, slot_of, table_at, CELL, HEAD, ROW};
use crate::ledger::Ledger;
use crate::listing;
use crate::state::{Phase, State, NUMBERS};

/// How a history begins.
#[derive(Clone, Copy, Debug)]
pub struct Opening {
    pub cells: u32,
    pub slots: u32,
    pub rubbish: u64,
}

pub struct Play<'a> {
    keepers: [&'a dyn Keeper; 2],
    desks: [Desk; 2],
    /// The desk as it was before the last call, taken on desks small enough for it to cost little.
    before: Option<Desk>,
    ledger: Option<Ledger>,
    /// Whether the event before was an accepted commit.
    committed: bool,
    pub calls: u64,
}

/// Desks with no more rows than this are looked at before each call as well as after.
const SMALL: u32 = 64;

impl<'a> Play<'a> {
    pub fn new(keepers: [&'a dyn Keeper; 2], opening: Opening) -> Play<'a> {
        let desk = Desk::new(opening.cells, opening.slots, opening.rubbish);
        let small = opening.cells.max(opening.slots) <= SMALL;
        let before = small.then(|| desk.clone());
        Play { keepers, desks: [desk.clone(), desk], before, ledger: None, committed: false, calls: 0 }
    }

    /// The desk of the first keeper; before a difference both are equal.
    pub fn desk(&self) -> &Desk {
        &self.desks[0]
    }

    /// Plays one event; a difference comes back in words.
    pub fn step(&mut self, event: &Event, hits: &mut Hits) -> Option<String> {
        for desk in &mut self.desks {
            event.disturb(desk);
        }
        let after_commit = std::mem::take(&mut self.committed);
        match event {
            Event::Call { call, lend } => {
                let (phase, state) = (self.desks[0].state[NUMBERS - 1], self.desks[0].state());
                self.call(Made { call: *call, lend: *lend, phase, state, after_commit }, hits)
            }
            Event::Listing { len } => self.listing(*len),
            Event::PowerLoss { .. } => {
                self.ledger.iter_mut().for_each(Ledger::lose_power);
                None
            }
            Event::Head { .. } if self.ledger.as_ref().is_some_and(|ledger| ledger.fresh) => None,
            Event::Row { buffer: Buffer::Row, .. } => None,
            _ => {
                self.ledger = None;
                None
            }
        }
    }

    fn call(&mut self, made: Made, hits: &mut Hits) -> Option<String> {
        self.calls += 1;
        if let Some(before) = &mut self.before {
            before.copy_from(&self.desks[0]);
        }
        let [a, b] = [0, 1].map(|k| self.desks[k].make(self.keepers[k], made.call, made.lend));
        if a != b {
            return Some(format!("{a} against {b}"));
        }
        let [left, right] = &self.desks;
        if let Some(difference) = left.difference(right) {
            return Some(difference);
        }
        if let Some(wrong) = misnamed(&made, a) {
            return Some(wrong);
        }
        self.committed = made.call == Call::Commit && a.number == 0;
        hits.count(&made, a, left);
        self.judge_alone(&made, a).or_else(|| self.judge_by_ledger(&made, a))
    }

    /// What holds of a call whatever the other keeper does.
    fn judge_alone(&self, made: &Made, answer: Answer) -> Option<String> {
        let (before, after) = (self.before.as_ref()?, &self.desks[0]);
        let reading = matches!(made.call, Call::ReadRow { .. });
        if answer.number != 0 && !reading && made.call != Call::RecoveryStart {
            return before.difference(after).map(|place| format!("a refusal changed {place}"));
        }
        if let (Call::Commit, Some(state)) = (made.call, made.state) {
            return judge_commit(state, answer, before, after);
        }
        let several = matches!(made.call, Call::Format { .. }) || made.lend.is_some();
        (!several && !one_store(before, after)).then(|| "more than one store".to_string())
    }

    fn judge_by_ledger(&mut self, made: &Made, answer: Answer) -> Option<String> {
        match made.call {
            Call::Format { cells, slots } if answer.number == 0 => {
                let desk = &self.desks[0];
                self.ledger = ((cells, slots) == (desk.cells, desk.slots)).then(|| Ledger::new(cells));
                return None;
            }
            Call::RecoveryStart if answer.number == 2 && self.ledger.is_some() => {
                return Some("recovery refused what calls alone have stored".to_string());
            }
            Call::RecoveryStart if answer.number != 0 => self.ledger.iter_mut().for_each(Ledger::lose_power),
            Call::ReadRow { .. } | Call::WriteRow { .. } => return None,
            _ => {}
        }
        if answer.number != 0 {
            return None;
        }
        self.ledger = self.ledger.take().filter(|ledger| ledger.covers(made.call));
        let run = made.state.is_some_and(|state| state.phase == Phase::Run);
        self.ledger.as_mut()?.note(made.call, answer, run, &self.desks[0])
    }

    fn listing(&self, len: usize) -> Option<String> {
        let medium = &self.desks[0].medium;
        let medium = &medium[..len.min(medium.len())];
        let [a, b] = self.keepers.map(|keeper| listing::text(keeper, &mut medium.to_vec()));
        (a != b).then(|| format!("listing {a:?} against {b:?}"))
    }
}

/// A bad row is named beside 2 and 7 alone, by a reason and an entry that is one.
fn misnamed(made: &Made, answer: Answer) -> Option<String> {
    let reads_rows = [Call::RecoveryStart, Call::Begin, Call::Commit, Call::Abort, Call::Force].contains(&made.call)
        || matches!(made.call, Call::Cut { .. });
    let BadRow { reason, entry } = answer.bad;
    let named = reason != 0 && entry != 0;
    let wrong = match answer.number {
        2 | 7 => !named,
        _ => answer.bad != BadRow::default(),
    };
    (reads_rows && wrong).then(|| format!("{answer}: a bad row is named beside 2 and 7 alone"))
}

/// What an accepted commit breaks by itself: it answers l+1, all entries up to that one are stored, each a row that reads, and
/// no other byte of the medium and of the waiting rows has changed.
fn judge_commit(state: State, answer: Answer, before: &Desk, after: &Desk) -> Option<String> {
    let (end, slots) = (state.l + 1, state.slots);
    let (mut medium, mut waiting) = (before.medium.clone(), before.waiting.clone());
    let own = ROW * slot_of(end, slots);
    waiting[own..own + ROW].copy_from_slice(&after.waiting[own..own + ROW]);
    for number in state.f + 1..=end {
        let at = ROW * slot_of(number, slots);
        let row = &after.waiting[at..at + ROW];
        if let Err(flaw) = read_row(row, state.cells, number) {
            return Some(format!("commit stored a row that isn't entry {number}: {flaw:?}"));
        }
        medium[HEAD + at..HEAD + at + ROW].copy_from_slice(row);
    }
    let ended = State { f: end, l: end, o: end, phase: Phase::Idle, ..state };
    if answer.value != end as u64 || after.state[..NUMBERS] != ended.numbers() {
        return Some(format!("commit with f={} l={} ended at {:?}: {answer}", state.f, state.l, &after.state[2..6]));
    }
    let wrong = (medium != after.medium).then_some("stored other rows than those that waited, or not all");
    wrong.or((waiting != after.waiting).then_some("changed other waiting rows")).map(|what| format!("commit {what}"))
}

/// Whether the media differ within one row, one cell or the head.
fn one_store(before: &Desk, after: &Desk) -> bool {
    let (a, b) = (&before.medium, &after.medium);
    if a == b {
        return true;
    }
    let differs = |at: &usize| a[*at] != b[*at];
    let (low, high) = ((0..a.len()).find(differs), (0..a.len()).rev().find(differs));
    let unit = |at: usize| match at.checked_sub(table_at(before.slots)) {
        Some(into) => HEAD + ROW * before.slots as usize + into / CELL,
        None => at / ROW,
    };
    low.map(unit) == high.map(unit)
}

/// Plays a whole history; the number of the event that shows a difference, and the difference.
pub fn replay(keepers: [&dyn Keeper; 2], opening: Opening, events: &[Event]) -> Option<(usize, String)> {
    let (mut play, mut hits) = (Play::new(keepers, opening), Hits::default());
    let found = |(at, event)| play.step(event, &mut hits).map(|difference| (at, difference));
    events.iter().enumerate().find_map(found)
}

/// Drops events while a difference stays: runs of them first, then one by one.
pub fn shorten(keepers: [&dyn Keeper; 2], opening: Opening, mut events: Vec<Event>) -> Vec<Event> {
    let mut run = events.len().div_ceil(2).max(1);
    loop {
        let (mut at, mut dropped) = (0, false);
        while at < events.len() {
            let mut fewer = events.clone();
            fewer.drain(at..(at + run).min(events.len()));
            match replay(keepers, opening, &fewer) {
                Some((shown, _)) => {
                    fewer.truncate(shown + 1);
                    (events, dropped) = (fewer, true);
                }
                None => at += run,
            }
        }
        if run == 1 && !dropped {
            return events;
        }
        run = (run / 2).max(1);
    }
}

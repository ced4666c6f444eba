//! Random histories. A history has a plan (what kind of trouble it meets); its events are drawn while it is played, from the
//! desk as it stands, so that most calls are ones that a host would make.

use crate::desk::{Buffer, Call, Desk, BUFFERS};
use crate::event::Event;
use crate::layout::{number_in, read_row, slot_of, word4, write_row, Entry, Row, CELL, HEAD, LEAST_SLOTS, M, ROW};
use crate::play::Opening;
use crate::rng::Rng;
use crate::spoil::{spoil, FLAWS};
use crate::state::{Phase, State, NUMBERS};
use std::collections::VecDeque;

#[derive(Clone, Copy, PartialEq, Eq)]
enum Plan {
    /// A host that does as it should, and power loss.
    Host,
    /// The same with wild arguments and wrong lengths.
    Rough,
    /// The same with damage to everything.
    Damaged,
    /// A drawn journal on the medium, recovered.
    Journal,
    /// Drawn states, sound and not, each with a call or a few.
    States,
}

#[derive(Clone, Copy, PartialEq, Eq)]
enum Mood {
    Even,
    /// Writes and few ends, until the journal is full.
    Fill,
    /// Forces, write-backs and cuts.
    Drain,
}

pub struct Draw {
    rng: Rng,
    plan: Plan,
    mood: Mood,
    pub opening: Opening,
    /// Cells that are used again and again.
    hot: Vec<u32>,
    queue: VecDeque<Event>,
    left: usize,
    /// How often the power was lost at the history's end.
    endings: u32,
}

impl Draw {
    pub fn new(mut rng: Rng) -> Draw {
        let (cells, slots) = sizes(&mut rng);
        let plan = match rng.below(100) {
            0..30 => Plan::Host,
            30..55 => Plan::Rough,
            55..75 => Plan::Damaged,
            75..90 => Plan::Journal,
            _ => Plan::States,
        };
        let most = match cells.max(slots) {
            0..=8 => 300,
            9..=64 => 900,
            _ => 9000,
        };
        let opening = Opening { cells, slots, rubbish: if rng.percent(50) { 0 } else { rng.word() } };
        let hot = (0..1 + rng.below(6)).map(|_| rng.between(0, cells - 1)).collect();
        let left = 20 + rng.index(most);
        let mut draw = Draw { rng, plan, mood: Mood::Even, opening, hot, queue: VecDeque::new(), left, endings: 0 };
        draw.open();
        draw
    }

    /// The next event, or none at the history's end.
    pub fn next(&mut self, desk: &Desk) -> Option<Event> {
        if let Some(event) = self.queue.pop_front() {
            return Some(event);
        }
        if self.left == 0 {
            return self.end(desk);
        }
        self.left -= 1;
        Some(match self.plan {
            Plan::Host => self.host(desk),
            Plan::Rough => self.rough(desk),
            Plan::Damaged if self.rng.percent(12) => self.damage(desk),
            Plan::Damaged | Plan::Journal => self.rough(desk),
            Plan::States => self.drawn_state(desk),
        })
    }

    /// Whether all that is left of the history is its last power losses and recoveries.
    pub fn is_over(&self) -> bool {
        self.left == 0 && self.queue.is_empty()
    }

    /// A format, sometimes a head near M, sometimes a journal.
    fn open(&mut self) {
        let Opening { cells, slots, .. } = self.opening;
        self.queue.push_back(Event::call(Call::Format { cells, slots }));
        let near_m = self.rng.percent(15);
        let h = if near_m { M - self.rng.between(0, 3 * slots) } else { 0 };
        if near_m {
            self.queue.push_back(Event::Head { h });
        }
        if self.plan == Plan::Journal {
            self.journal(h);
            self.left = self.left.min(100);
        }
        self.queue.push_back(Event::call(Call::RecoveryStart));
    }

    /// Power loss, the listing, recovery to its end, and recovery once more, which must be clean.
    fn end(&mut self, desk: &Desk) -> Option<Event> {
        if desk.state().is_some_and(|state| state.phase == Phase::Recovering) && self.endings > 0 {
            return Some(Event::call(Call::RecoveryStep));
        }
        self.endings += 1;
        let whole = desk.proper_len(Buffer::Medium);
        let len = if self.endings == 1 { whole } else { self.rng.index(whole) };
        self.queue.push_back(Event::Listing { len });
        self.queue.push_back(Event::call(Call::RecoveryStart));
        (self.endings <= 2).then(|| Event::PowerLoss { rubbish: self.rng.word() })
    }

    fn host(&mut self, desk: &Desk) -> Event {
        if self.rng.below(40 + desk.slots as u64 / 2) == 0 {
            self.mood = self.rng.pick(&[Mood::Even, Mood::Fill, Mood::Drain]);
        }
        let Some(state) = desk.state() else {
            return Event::call(self.without_state(desk));
        };
        if self.rng.below(60 + desk.slots as u64) == 0 {
            return Event::PowerLoss { rubbish: self.rng.word() };
        }
        let call = match state.phase {
            Phase::Recovering => Call::RecoveryStep,
            Phase::Idle => self.idle_call(&state, desk),
            Phase::Run => self.run_call(&state, desk),
        };
        Event::call(call)
    }

    /// Recovery; after a refused one, which leaves zeros, now and then a format.
    fn without_state(&mut self, desk: &Desk) -> Call {
        let refused = desk.state[..NUMBERS] == [0; NUMBERS];
        if refused && self.rng.percent(40) {
            return Call::Format { cells: desk.cells, slots: desk.slots };
        }
        Call::RecoveryStart
    }

    fn idle_call(&mut self, state: &State, desk: &Desk) -> Call {
        let [begin, force, back, cut] = match self.mood {
            Mood::Even => [45, 60, 80, 92],
            Mood::Fill => [85, 90, 92, 94],
            Mood::Drain => [8, 30, 75, 96],
        };
        match self.rng.below(100) {
            k if k < begin => Call::Begin,
            k if k < force => Call::Force,
            k if k < back => Call::WriteBack { cell: self.changed_cell(desk) },
            k if k < cut => Call::Cut { p: self.cut_to(state, desk) },
            k if k < 98 => Call::Look { n: self.entry(state) },
            98 => Call::Abort,
            _ => Call::TableView,
        }
    }

    fn run_call(&mut self, state: &State, desk: &Desk) -> Call {
        let [write, end, force, back, cut] = match self.mood {
            Mood::Even => [45, 58, 72, 84, 90],
            Mood::Fill => [88, 91, 93, 94, 95],
            Mood::Drain => [10, 20, 55, 80, 94],
        };
        match self.rng.below(100) {
            k if k < write => {
                let cell = self.cell(desk);
                Call::Write { cell, value: self.value(desk, cell) }
            }
            k if k < end => self.rng.pick(&[Call::Commit, Call::Commit, Call::Abort, Call::Begin]),
            k if k < force => Call::Force,
            k if k < back => Call::WriteBack { cell: self.changed_cell(desk) },
            k if k < cut => Call::Cut { p: self.cut_to(state, desk) },
            k if k < 99 => Call::Read { cell: self.cell(desk) },
            _ => Call::Look { n: self.entry(state) },
        }
    }

    /// A host's call, or any call, or one with a wrong length, or one on a row alone.
    fn rough(&mut self, desk: &Desk) -> Event {
        match self.rng.below(100) {
            0..4 => self.row_call(desk),
            4..12 => Event::call(self.any_call(desk)),
            12..18 => Event::Call { call: self.any_call(desk), lend: Some(self.wrong_length(desk)) },
            18 if self.rng.percent(30) => Event::Listing { len: self.rng.index(desk.medium.len() + 1) },
            _ => self.host(desk),
        }
    }

    fn any_call(&mut self, desk: &Desk) -> Call {
        let state = desk.state().unwrap_or(State {
            cells: desk.cells,
            slots: desk.slots,
            h: 0,
            f: 2,
            l: 4,
            o: 3,
            phase: Phase::Idle,
        });
        let cell = self.wild_cell(desk);
        match self.rng.below(28) {
            0 => self.format_call(desk),
            1..3 => Call::RecoveryStart,
            3..5 => Call::RecoveryStep,
            5..7 => Call::Begin,
            7..9 => Call::Read { cell },
            9..13 => Call::Write { cell, value: self.value(desk, cell) },
            13..15 => Call::Commit,
            15..17 => Call::Abort,
            17..19 => Call::Force,
            19..22 => Call::WriteBack { cell },
            22..25 => Call::Cut { p: self.wild_number(&state) },
            25..27 => Call::Look { n: self.wild_number(&state) },
            _ => Call::TableView,
        }
    }

    /// A format; three in four have a size out of rule.
    fn format_call(&mut self, desk: &Desk) -> Call {
        let (cells, slots) = (desk.cells, desk.slots);
        match self.rng.below(8) {
            0..2 => Call::Format { cells, slots },
            2 => Call::Format { cells: self.rng.pick(&[0, 1025, M]), slots },
            3 => Call::Format { cells, slots: self.rng.pick(&[0, 3, 1025, M]) },
            // The same length with other sizes.
            4 => Call::Format { cells: cells + 4, slots: slots - 1 },
            5 => Call::Format { cells: cells.saturating_sub(4), slots: slots + 1 },
            6 => Call::Format { cells: slots, slots: cells },
            _ => Call::Format { cells: self.rng.word() as u32, slots: self.rng.word() as u32 },
        }
    }

    fn wrong_length(&mut self, desk: &Desk) -> (Buffer, usize) {
        let buffer = self.rng.pick(&BUFFERS);
        let proper = desk.proper_len(buffer);
        let len = match self.rng.below(8) {
            0..2 => proper + 1,
            2..4 => proper - 1,
            4 => proper + self.rng.pick(&[8, 32]),
            5 => proper.saturating_sub(self.rng.pick(&[8, 32])),
            6 => self.rng.pick(&[0, 31, 32, 33]).min(desk.whole_len(buffer)),
            _ => self.rng.index(desk.whole_len(buffer) + 1),
        };
        (buffer, len)
    }

    /// A call on the row buffer, after a row was put there.
    fn row_call(&mut self, desk: &Desk) -> Event {
        let number = self.rng.pick(&[0, 1, 2, 7, M - 1, M]);
        let lend = self.rng.percent(25).then(|| (Buffer::Row, self.rng.index(desk.row.len() + 1)));
        if self.rng.percent(60) {
            let row = self.row(number, desk.cells, 50);
            let cells = if self.rng.percent(90) { desk.cells } else { self.rng.pick(&[0, 1, M]) };
            let asked = if self.rng.percent(90) { number } else { number ^ 1 };
            self.queue.push_back(Event::Call { call: Call::ReadRow { cells, number: asked }, lend });
            return Event::Row { buffer: Buffer::Row, slot: 0, row };
        }
        let kind = self.rng.pick(&[0, 1, 1, 2, 2, 3, 3, 4, 255, 257, M]);
        let empty = self.rng.percent(50);
        let cell = if empty { 0 } else { self.rng.pick(&[0, 1, desk.cells, M]) };
        let old = if empty { 0 } else { self.rng.pick(&[0, 1, u64::MAX]) };
        let new = if empty { 0 } else { self.rng.word() };
        Event::Call { call: Call::WriteRow { number, kind, cell, old, new }, lend }
    }

    // ---- arguments

    fn cell(&mut self, desk: &Desk) -> u32 {
        match self.rng.below(100) {
            0..65 => self.rng.pick(&self.hot.clone()),
            65..90 => self.rng.between(0, desk.cells - 1),
            90..97 => desk.cells - 1,
            _ => desk.cells,
        }
    }

    fn wild_cell(&mut self, desk: &Desk) -> u32 {
        match self.rng.below(20) {
            0..14 => self.cell(desk),
            14..17 => desk.cells,
            17..19 => desk.cells + self.rng.below(40) as u32,
            _ => self.rng.word() as u32,
        }
    }

    /// A cell that waits for its write-back, where there is one.
    fn changed_cell(&mut self, desk: &Desk) -> u32 {
        if self.rng.percent(15) {
            return self.cell(desk);
        }
        let cells = desk.cells as usize;
        let from = self.rng.index(cells);
        let found = (from..cells).chain(0..from).find(|&cell| desk.first[cell] != 0);
        found.map_or_else(|| self.cell(desk), |cell| cell as u32)
    }

    fn value(&mut self, desk: &Desk, cell: u32) -> u64 {
        match self.rng.below(20) {
            0 => 0,
            1 => self.rng.word(),
            2..4 if cell < desk.cells => desk.current[cell as usize],
            _ => self.part(),
        }
    }

    /// A part with one of the releases whose order as text is not their order.
    fn part(&mut self) -> u64 {
        let (major, minor) = self.rng.pick(&[(1u64, 9u64), (1, 10), (1, 2), (2, 0), (10, 1), (0, 1)]);
        let part = self.rng.pick(&[40017, 40052, 40017, 0]);
        part | major << 32 | minor << 48
    }

    fn cut_to(&mut self, state: &State, desk: &Desk) -> u32 {
        let most = state.f.min(state.o);
        match self.rng.below(10) {
            0..5 => self.best_cut(state, desk, most),
            5 => most,
            6..8 if most > state.h => self.rng.between(state.h, most),
            8 => state.h,
            _ => self.wild_number(state),
        }
    }

    /// The highest end up to `most` below every `first`, where there is one in the last few entries.
    fn best_cut(&mut self, state: &State, desk: &Desk, most: u32) -> u32 {
        let firsts = desk.first[..desk.cells as usize].iter().filter(|&&first| first != 0);
        let mut p = firsts.fold(most, |p, &first| p.min(first - 1));
        for _ in 0..20 {
            if p <= state.h {
                return state.h;
            }
            let row = &desk.medium[HEAD + ROW * slot_of(p, desk.slots)..];
            if !matches!(read_row(row, state.cells, p), Ok(Entry::Update { .. })) {
                return p;
            }
            p -= 1;
        }
        p
    }

    fn entry(&mut self, state: &State) -> u32 {
        self.rng.between(state.h, state.l.saturating_add(1))
    }

    fn wild_number(&mut self, state: &State) -> u32 {
        let near = self.rng.pick(&[state.h, state.f, state.l, state.o]);
        match self.rng.below(10) {
            0..4 => near,
            4..6 => near.wrapping_add(1),
            6..8 => near.wrapping_sub(1),
            8 => self.rng.pick(&[0, 1, M]),
            _ => self.entry(state),
        }
    }

    // ---- damage

    /// A row of entry `number`; `flawed` in a hundred are spoiled.
    fn row(&mut self, number: u32, cells: u32, flawed: u64) -> Row {
        let entry = match self.rng.below(10) {
            0..7 => {
                let cell = if self.rng.percent(70) {
                    self.rng.pick(&self.hot.clone())
                } else {
                    self.rng.between(0, cells - 1)
                };
                Entry::Update { cell, old: self.part(), new: self.part() }
            }
            7..9 => Entry::Commit,
            _ => Entry::Abort,
        };
        let mut row = [0; ROW];
        write_row(&mut row, number, entry);
        if self.rng.percent(flawed) {
            self.spoil(&mut row, cells);
        }
        row
    }

    /// One or two flaws of any kind, a byte changed anywhere, or an update that becomes an end with all that it had.
    fn spoil(&mut self, row: &mut Row, cells: u32) {
        match self.rng.below(8) {
            0 => row[self.rng.index(ROW)] ^= 1 << self.rng.below(8),
            1 => row[4] = self.rng.pick(&[2, 3]),
            _ => {
                let (a, b) = (self.rng.pick(&FLAWS), self.rng.pick(&FLAWS));
                if self.rng.percent(40) {
                    spoil(row, a.max(b), cells, self.rng.word());
                }
                spoil(row, a.min(b), cells, self.rng.word());
            }
        }
    }

    /// Another number in a row: none, the next one's, that of a turn before or after, or one with another bit.
    fn wear(&mut self, row: &mut Row, slots: u32) {
        let number = number_in(row);
        let worn = match self.rng.below(8) {
            0..4 => 0,
            4 => number.wrapping_add(1),
            5 => number.wrapping_sub(slots),
            6 => number.wrapping_add(slots),
            _ => number ^ 1 << self.rng.below(32),
        };
        row[..4].copy_from_slice(&worn.to_le_bytes());
    }

    /// A journal from h+1 on, on a table with something in it. The journal ends by a stale row, spoiled or worn ones, or a turn.
    fn journal(&mut self, h: u32) {
        let Opening { cells, slots, .. } = self.opening;
        for _ in 0..self.rng.below(6) {
            let at = HEAD + ROW * slots as usize + CELL * self.rng.index(cells as usize);
            self.queue.push_back(Event::Poke { buffer: Buffer::Medium, at, value: self.rng.below(256) });
        }
        let most = slots.min(M - h);
        let made = if self.rng.percent(30) { most } else { self.rng.between(0, most) };
        let spoiled = if self.rng.percent(30) { self.rng.between(0, made) } else { M };
        let worn = self.rng.pick(&[0, 0, 15, 50]);
        for k in 0..made {
            let flawed = if k < spoiled { 0 } else { 50 };
            let mut row = self.row(h + k + 1, cells, flawed);
            if self.rng.percent(worn) {
                self.wear(&mut row, slots);
            }
            self.queue.push_back(Event::Row { buffer: Buffer::Medium, slot: slot_of(h + k + 1, slots), row });
        }
        self.queue.push_back(Event::PowerLoss { rubbish: self.rng.word() });
    }

    fn damage(&mut self, desk: &Desk) -> Event {
        let state = desk.state();
        match self.rng.below(10) {
            0 => Event::Poke {
                buffer: Buffer::Medium,
                at: self.rng.index(desk.medium.len()),
                value: self.rng.below(256),
            },
            1 => Event::Poke {
                buffer: Buffer::Waiting,
                at: self.rng.index(desk.waiting.len()),
                value: self.rng.below(256),
            },
            2 => self.damaged_row(desk),
            3 => match state {
                Some(state) if state.f < state.l => self.spoiled_waiting(&state, desk),
                _ => self.damaged_row(desk),
            },
            4 => self.worn_row(desk),
            5..8 => self.damaged_mark(desk),
            8 if self.rng.percent(30) => self.damaged_head(desk),
            _ => match state {
                Some(state) => Event::State(self.near_state(state)),
                None => Event::PowerLoss { rubbish: self.rng.word() },
            },
        }
    }

    fn damaged_row(&mut self, desk: &Desk) -> Event {
        let buffer = self.rng.pick(&[Buffer::Medium, Buffer::Waiting]);
        let h = word4(&desk.medium, 8);
        let (low, high) = desk.state().map_or((h, h.saturating_add(desk.slots)), |state| (state.h, state.l));
        let number = self.rng.between(low, high).saturating_add(self.rng.below(2) as u32).max(1);
        let row = self.row(number, desk.cells, 40);
        Event::Row { buffer, slot: slot_of(number, desk.slots), row }
    }

    /// A row that is to be stored is spoiled, a commit is tried, and the row is put right again or not.
    fn spoiled_waiting(&mut self, state: &State, desk: &Desk) -> Event {
        let slot = slot_of(self.rng.between(state.f + 1, state.l), desk.slots);
        let (buffer, right) = (Buffer::Waiting, *desk.waiting[ROW * slot..].first_chunk().unwrap());
        let mut row = right;
        self.spoil(&mut row, desk.cells);
        self.queue.push_back(Event::call(Call::Commit));
        if self.rng.percent(70) {
            let again = [Event::Row { buffer, slot, row: right }, Event::call(Call::Commit), Event::call(Call::Force)];
            self.queue.extend(again);
        }
        Event::Row { buffer, slot, row }
    }

    /// A stored row with another number.
    fn worn_row(&mut self, desk: &Desk) -> Event {
        let h = word4(&desk.medium, 8);
        let (low, high) = desk.state().map_or((h, h.saturating_add(desk.slots)), |state| (state.h, state.f));
        let slot = slot_of(self.rng.between(low, high).max(1), desk.slots);
        let mut row = *desk.medium[HEAD + ROW * slot..].first_chunk().unwrap();
        self.wear(&mut row, desk.slots);
        Event::Row { buffer: Buffer::Medium, slot, row }
    }

    fn damaged_mark(&mut self, desk: &Desk) -> Event {
        let buffer = self.rng.pick(&[Buffer::First, Buffer::Last]);
        let value = desk.state().map_or(0, |state| self.wild_number(&state));
        Event::Poke { buffer, at: self.rng.pick(&self.hot.clone()) as usize, value: value as u64 }
    }

    fn damaged_head(&mut self, desk: &Desk) -> Event {
        match self.rng.below(3) {
            0 => Event::Head { h: desk.state().map_or(0, |state| self.wild_number(&state)) },
            _ => Event::Poke { buffer: Buffer::Medium, at: self.rng.index(HEAD), value: self.rng.below(4) },
        }
    }

    // ---- states

    /// The state with one number changed a little.
    fn near_state(&mut self, state: State) -> [u32; NUMBERS] {
        let mut numbers = state.numbers();
        let at = self.rng.index(NUMBERS);
        numbers[at] = match self.rng.below(4) {
            0..2 => numbers[at].wrapping_add(1),
            2 => numbers[at].wrapping_sub(1),
            _ => self.rng.pick(&[0, 3, 4, 1024, 1025, M]),
        };
        numbers
    }

    fn sound_state(&mut self, desk: &Desk) -> State {
        let (cells, slots) = (desk.cells, desk.slots);
        let h = match self.rng.below(4) {
            0 => M - self.rng.between(0, 2 * slots),
            1 => 0,
            _ => self.rng.between(0, 5000),
        };
        let made = if self.rng.percent(40) { slots - self.rng.between(0, 2) } else { self.rng.between(0, slots) };
        let l = h.saturating_add(made);
        // Short transactions and few waiting rows are likelier: each of these is put in place.
        let f =
            if self.rng.percent(70) { l.saturating_sub(self.rng.between(0, 9)).max(h) } else { self.rng.between(h, l) };
        let o =
            if self.rng.percent(90) { l.saturating_sub(self.rng.between(0, 6)).max(h) } else { self.rng.between(h, l) };
        match self.rng.below(10) {
            0 => State { cells, slots, h, f: l, l, o: l, phase: Phase::Recovering },
            1..4 => State { cells, slots, h, f, l, o: l, phase: Phase::Idle },
            _ => {
                let state = State { cells, slots, h, f, l, o, phase: Phase::Run };
                if state.is_sound() {
                    state
                } else {
                    State { o: l, phase: Phase::Idle, ..state }
                }
            }
        }
    }

    /// Puts a state in place with the rows that it speaks of, and has a few calls made.
    fn drawn_state(&mut self, desk: &Desk) -> Event {
        let state = self.sound_state(desk);
        let flawed = self.rng.pick(&[0, 0, 0, 0, 0, 0, 0, 10, 20, 30]);
        if self.rng.percent(90) {
            self.waiting_rows(&state, flawed);
        }
        if state.f > state.h {
            let number = self.rng.between(state.h + 1, state.f);
            let row = self.row(number, state.cells, flawed);
            self.queue.push_back(Event::Row { buffer: Buffer::Medium, slot: slot_of(number, state.slots), row });
            self.queue.push_back(Event::call(Call::Cut { p: number }));
        }
        if flawed > 0 {
            let calls = [Call::Commit, Call::Force, self.rng.pick(&[Call::Abort, Call::Begin])];
            self.queue.extend(calls.map(Event::call));
        } else if self.rng.percent(20) {
            self.queue.extend([Call::Commit, Call::Force].map(Event::call));
        }
        for _ in 0..1 + self.rng.below(3) {
            let lend = self.rng.percent(10).then(|| self.wrong_length(desk));
            let call = self.any_call(desk);
            self.queue.push_back(Event::Call { call, lend });
        }
        if self.rng.percent(15) {
            return Event::State(self.near_state(state));
        }
        Event::State(state.numbers())
    }

    /// The open transaction's updates, the entries that are not stored and the one that force needs, and marks near them.
    fn waiting_rows(&mut self, state: &State, flawed: u64) {
        let from = state.o.min(state.f).max(state.l.saturating_sub(40));
        let force = (state.f < state.l).then_some(state.f);
        for number in force.into_iter().chain(from..state.l).map(|n| n + 1) {
            let mut row = self.row(number, state.cells, 0);
            if number > state.o {
                let (cell, old, new) = (self.rng.pick(&self.hot.clone()), self.part(), self.part());
                write_row(&mut row, number, Entry::Update { cell, old, new });
            }
            if self.rng.percent(flawed) {
                self.spoil(&mut row, state.cells);
            }
            self.queue.push_back(Event::Row { buffer: Buffer::Waiting, slot: slot_of(number, state.slots), row });
        }
        for buffer in [Buffer::First, Buffer::Last] {
            let (at, value) = (self.rng.pick(&self.hot.clone()) as usize, self.wild_number(state) as u64);
            self.queue.push_back(Event::Poke { buffer, at, value });
        }
    }
}

fn sizes(rng: &mut Rng) -> (u32, u32) {
    match rng.below(100) {
        0..60 => (rng.between(1, 4), rng.between(LEAST_SLOTS, 8)),
        60..88 => (rng.between(1, 64), rng.between(LEAST_SLOTS, 64)),
        88..94 => (rng.between(1, 1024), rng.between(LEAST_SLOTS, 1024)),
        _ => rng.pick(&[(1, 4), (1, 1024), (1024, 4), (1024, 1024), (1024, 1023), (1023, 1024)]),
    }
}

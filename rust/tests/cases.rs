//! Document 01's sessions 1 to 14 on the second program alone, in the sessions' own words: N = 2, C = 4 where nothing else
//! is said. By ticket 4 commit stores: what a session wants of f before that is forced before the commit.

use second::directed::{A, B};
use second::fault::Fault;
use second::keeper::{self, BadRow, Keeper, STEP_CLEAN, STEP_HEAD};
use second::layout::{medium_len, read_row, Entry, Head, HEAD, M, ROW};
use second::listing;

/// A terminal: the medium, and the workspaces and state that power loss takes.
struct Terminal {
    keeper: &'static dyn Keeper,
    medium: Vec<u8>,
    current: Vec<u64>,
    first: Vec<u32>,
    last: Vec<u32>,
    waiting: Vec<u8>,
    state: [u32; 7],
}

/// Done with a value, or refused.
type Outcome = Result<u64, u32>;

fn outcome(number: u32, value: u64) -> Outcome {
    if number == 0 {
        Ok(value)
    } else {
        Err(number)
    }
}

impl Terminal {
    /// Formatted and switched off.
    fn formatted(cells: u32, slots: u32) -> Terminal {
        let n = cells as usize;
        let mut terminal = Terminal {
            keeper: keeper::second(Fault::None),
            medium: vec![0xee; medium_len(cells, slots)],
            current: vec![7; n],
            first: vec![7; n],
            last: vec![7; n],
            waiting: vec![7; ROW * slots as usize],
            state: [7; 7],
        };
        assert_eq!(terminal.keeper.format(&mut terminal.medium, cells, slots), 0);
        terminal
    }

    /// Formatted and recovered.
    fn new() -> Terminal {
        let mut terminal = Terminal::formatted(2, 4);
        assert_eq!(terminal.recover(), Ok(vec![STEP_CLEAN]));
        terminal
    }

    /// Case 2: A committed.
    fn with_a() -> Terminal {
        let mut t = Terminal::new();
        assert_eq!([t.begin(), t.write(0, A)], [Ok(0); 2]);
        assert_eq!([t.force(), t.commit(), t.force()], [Ok(1), Ok(2), Ok(0)]);
        t
    }

    /// Case 3 before its commit: then B written, with entries up to f stored.
    fn with_b_open(f: u32) -> Terminal {
        let mut t = Terminal::with_a();
        assert_eq!([t.begin(), t.write(0, B)], [Ok(0); 2]);
        assert_eq!(read_row(&t.waiting[2 * ROW..], 2, 3), Ok(Entry::Update { cell: 0, old: A, new: B }));
        assert_eq!(t.write(0, B), Err(5));
        (2..f).for_each(|n| assert_eq!(t.force(), Ok(n as u64 + 1)));
        t
    }

    /// The same with f = 3 and cell 0 stored as B.
    fn with_b_stored() -> Terminal {
        let mut t = Terminal::with_b_open(3);
        assert_eq!(t.write_back(0), Ok(1));
        assert_eq!(t.cell_on_medium(0), B);
        t
    }

    /// Commits B: all entries are stored, and there is no room.
    fn commit_b(mut self) -> Terminal {
        assert_eq!([self.commit(), self.force(), self.begin()], [Ok(4), Ok(0), Err(5)]);
        assert_eq!(self.state, [2, 4, 0, 4, 4, 4, 0]);
        self
    }

    /// Power loss, then recovery to its end: the steps' values, or start's refusal.
    fn recover(&mut self) -> Result<Vec<u64>, u32> {
        self.current.fill(99);
        self.first.fill(99);
        self.last.fill(99);
        self.waiting.fill(99);
        let ((start, _), mut steps) = (self.start(), Vec::new());
        outcome(start, 0)?;
        while steps.last().is_none_or(|&step| step < STEP_HEAD) {
            let mut value = 0;
            let number = self.keeper.recovery_step(&mut self.state, &mut self.medium, &self.current, &mut value);
            outcome(number, 0)?;
            steps.push(value);
        }
        Ok(steps)
    }

    /// Start's number and the row that it names.
    fn start(&mut self) -> (u32, BadRow) {
        let Terminal { keeper, medium, current, first, last, waiting, state } = self;
        let mut bad = BadRow::default();
        (keeper.recovery_start(medium, current, first, last, waiting, state, &mut bad), bad)
    }

    /// The row of an entry loses its number.
    fn wear(&mut self, entry: usize) {
        self.medium[HEAD + ROW * (entry - 1)..][..4].fill(0);
    }

    fn begin(&mut self) -> Outcome {
        let Terminal { keeper, current, first, last, waiting, state, .. } = self;
        outcome(keeper.begin(state, current, first, last, waiting, &mut BadRow::default()), 0)
    }

    fn abort(&mut self) -> Outcome {
        let Terminal { keeper, current, first, last, waiting, state, .. } = self;
        outcome(keeper.abort(state, current, first, last, waiting, &mut BadRow::default()), 0)
    }

    fn read(&mut self, cell: u32) -> Outcome {
        let mut value = 0;
        outcome(self.keeper.read(&mut self.state, cell, &self.current, &mut value), value)
    }

    fn write(&mut self, cell: u32, new: u64) -> Outcome {
        let Terminal { keeper, current, first, last, waiting, state, .. } = self;
        outcome(keeper.write(state, cell, new, current, first, last, waiting), 0)
    }

    fn commit(&mut self) -> Outcome {
        let Terminal { keeper, medium, waiting, state, .. } = self;
        let mut value = 0;
        let number = keeper.commit(state, medium, waiting, &mut value, &mut BadRow::default());
        outcome(number, value)
    }

    fn force(&mut self) -> Outcome {
        let mut value = 0;
        let number =
            self.keeper.force(&mut self.state, &mut self.medium, &self.waiting, &mut value, &mut BadRow::default());
        outcome(number, value)
    }

    fn write_back(&mut self, cell: u32) -> Outcome {
        let Terminal { keeper, medium, current, first, last, state, .. } = self;
        let mut value = 0;
        let number = keeper.write_back(state, cell, medium, current, first, last, &mut value);
        outcome(number, value)
    }

    fn cut(&mut self, p: u32) -> Outcome {
        outcome(self.keeper.cut(&mut self.state, p, &mut self.medium, &self.first, &mut BadRow::default()), 0)
    }

    fn cell_on_medium(&self, cell: usize) -> u64 {
        let at = HEAD + self.waiting.len() + 8 * cell;
        u64::from_le_bytes(self.medium[at..at + 8].try_into().unwrap())
    }

    fn head(&self) -> u32 {
        Head::of(&self.medium).unwrap().h
    }
}

#[test]
fn case_1_first_recovery_is_clean() {
    let mut t = Terminal::new();
    assert_eq!(t.state, [2, 4, 0, 0, 0, 0, 0]);
    assert_eq!(t.read(0), Err(3));
}

#[test]
fn case_2_write_force_commit() {
    let t = Terminal::with_a();
    assert_eq!(t.state, [2, 4, 0, 2, 2, 2, 0]);
}

#[test]
fn case_3_no_room() {
    let t = Terminal::with_b_open(2);
    assert_eq!(t.state, [2, 4, 0, 2, 3, 2, 1]);
    t.commit_b();
}

#[test]
fn case_4_write_back_waits_for_force() {
    let mut t = Terminal::with_b_open(2);
    assert_eq!(t.write_back(0), Err(8));
    assert_eq!(t.force(), Ok(3));
    assert_eq!(t.write_back(0), Ok(1));
    assert_eq!(t.write_back(0), Ok(0));
}

#[test]
fn case_5_open_transaction_is_undone() {
    let mut t = Terminal::with_b_stored();
    let listed = listing::text(t.keeper, &mut t.medium.clone());
    assert_eq!(listed, "cells=2\nslots=4\nhead=3\ncell=0\npart=40017\nrelease=1.9\n");
    assert_eq!(t.recover(), Ok(vec![0, STEP_HEAD]));
    assert_eq!((t.cell_on_medium(0), t.head()), (A, 3));
}

#[test]
fn case_6_committed_transaction_stays() {
    let mut t = Terminal::with_b_stored().commit_b();
    assert_eq!(t.recover(), Ok(vec![STEP_HEAD]));
    assert_eq!((t.cell_on_medium(0), t.head()), (B, 4));
}

#[test]
fn case_7_recovery_again_is_clean() {
    let mut t = Terminal::with_b_stored();
    t.recover().unwrap();
    let before = t.medium.clone();
    assert_eq!(t.recover(), Ok(vec![STEP_CLEAN]));
    assert_eq!(t.medium, before);
}

#[test]
fn case_8_cuts() {
    for (p, answer) in [(2, Ok(0)), (4, Ok(0)), (3, Err(9)), (5, Err(9))] {
        let mut t = Terminal::with_b_stored().commit_b();
        assert_eq!(t.cut(p), answer);
        assert_eq!(t.head(), if answer.is_ok() { p } else { 0 });
    }
}

#[test]
fn case_9_cut_keeps_what_a_cell_needs() {
    assert_eq!(Terminal::with_b_open(2).commit_b().cut(2), Err(9));
}

#[test]
fn case_10_abort_in_falling_order() {
    let mut t = Terminal::new();
    assert_eq!([t.begin(), t.write(0, A), t.write(0, B), t.abort()], [Ok(0); 4]);
    assert_eq!((t.current[0], t.state), (0, [2, 4, 0, 0, 3, 3, 0]));
    assert_eq!((t.first[0], t.last[0]), (1, 3));
    let entries = [1, 2, 3].map(|n| read_row(&t.waiting[ROW * (n - 1)..], 2, n as u32));
    let update = |old, new| Ok(Entry::Update { cell: 0, old, new });
    assert_eq!(entries, [update(0, A), update(A, B), Ok(Entry::Abort)]);
}

#[test]
fn case_11_sizes_out_of_rule() {
    let keeper = keeper::second(Fault::None);
    for (cells, slots) in [(2, 3), (2, 1025), (0, 4), (1025, 4)] {
        let mut medium = vec![5; 32 + 32 * slots as usize + 8 * cells as usize];
        assert_eq!(keeper.format(&mut medium, cells, slots), 1);
        assert!(medium.iter().all(|&byte| byte == 5));
    }
}

#[test]
fn case_12_last_cell_and_idle_abort() {
    let mut t = Terminal::new();
    assert_eq!(t.abort(), Ok(0));
    assert_eq!(t.state, [2, 4, 0, 0, 0, 0, 0]);
    assert_eq!([t.begin(), t.write(1, A), t.write(2, A)], [Ok(0), Ok(0), Err(4)]);
    assert_eq!([t.read(1), t.read(2)], [Ok(A), Err(4)]);
}

#[test]
fn case_13_numbers_used_up() {
    let mut t = Terminal::formatted(2, 4);
    Head { cells: 2, slots: 4, h: M }.store(&mut t.medium);
    assert_eq!(t.recover(), Ok(vec![STEP_CLEAN]));
    assert_eq!(t.begin(), Err(6));
}

#[test]
fn case_14_kind_4_and_number_0() {
    let mut t = Terminal::with_b_open(3).commit_b();
    t.medium[HEAD + 4] = 4;
    assert_eq!(t.recover(), Err(2));
    assert_eq!((t.state, t.current[0]), ([0; 7], 99));
    // With no later row the journal ends.
    let mut t = Terminal::new();
    assert_eq!([t.begin(), t.write(0, A), t.force()], [Ok(0), Ok(0), Ok(1)]);
    t.wear(1);
    assert_eq!(t.recover(), Ok(vec![STEP_CLEAN]));
}

#[test]
fn case_14_number_0_before_a_later_row() {
    for entry in [1, 2] {
        let mut t = Terminal::with_b_stored();
        t.wear(entry);
        assert_eq!(t.start(), (2, BadRow { reason: 10, entry: entry as u32 }));
        assert_eq!(t.state, [0; 7]);
        assert_eq!(listing::text(t.keeper, &mut t.medium.clone()), "refused=2\n");
    }
    let mut t = Terminal::with_b_open(3);
    t.wear(3);
    assert_eq!(t.start(), (0, BadRow::default()));
    assert_eq!(t.state, [2, 4, 0, 2, 2, 2, 2]);
}

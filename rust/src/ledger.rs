//! What the demands promise of a host's history, kept from the calls and answers alone, with no journal and no replay.
//!
//! While a history is clean (format once, then calls on the state and buffers that the one before left, and power losses),
//! every read answers as the handout's SequentialTr does; at the end of each recovery the table is that of exactly the
//! transactions whose commit was accepted, in that order; no step stores another value than that table's; and run again at
//! once, recovery stores nothing. So the ledger checks both programs against the demands, not only against each other.

use crate::desk::{Answer, Call, Desk};
use crate::keeper::{STEP_CLEAN, STEP_HEAD};
use crate::layout::table;

pub struct Ledger {
    /// The table of the committed transactions.
    durable: Vec<u64>,
    /// The table as the next read must see it, and as it was when the open transaction began.
    now: Vec<u64>,
    before: Vec<u64>,
    /// The open transaction's writes.
    open: Vec<(usize, u64)>,
    /// Whether recovery was started since the format or the last power loss; until then only that may be called.
    started: bool,
    /// Whether nothing was called since the format.
    pub fresh: bool,
    /// Whether a recovery has ended and nothing was changed since.
    settled: bool,
}

impl Ledger {
    /// After an accepted format.
    pub fn new(cells: u32) -> Ledger {
        let empty = vec![0; cells as usize];
        Ledger {
            durable: empty.clone(),
            now: empty.clone(),
            before: empty,
            open: Vec::new(),
            started: false,
            fresh: true,
            settled: false,
        }
    }

    pub fn lose_power(&mut self) {
        self.open.clear();
        self.started = false;
    }

    /// Whether the history stays clean with this accepted call.
    pub fn covers(&self, call: Call) -> bool {
        self.started || matches!(call, Call::RecoveryStart | Call::TableView)
    }

    /// What an accepted call breaks, if anything. `run` says whether a transaction was open before it.
    pub fn note(&mut self, call: Call, answer: Answer, run: bool, desk: &Desk) -> Option<String> {
        self.fresh = false;
        match call {
            Call::RecoveryStart => {
                self.lose_power();
                self.started = true;
            }
            Call::RecoveryStep => return self.stepped(answer.value, desk),
            Call::TableView | Call::Look { .. } => return None,
            Call::Begin if !run => self.before.clone_from(&self.now),
            Call::Begin | Call::Abort if run => {
                self.now.clone_from(&self.before);
                self.open.clear();
            }
            Call::Read { cell } if answer.value != self.now[cell as usize] => {
                return Some(format!(
                    "read answers {}, the transactions say {}",
                    answer.value, self.now[cell as usize]
                ));
            }
            Call::Write { cell, value } => {
                self.now[cell as usize] = value;
                self.open.push((cell as usize, value));
            }
            Call::Commit => self.open.drain(..).for_each(|(cell, value)| self.durable[cell] = value),
            _ => {}
        }
        self.settled &= call == Call::RecoveryStart;
        None
    }

    fn stepped(&mut self, value: u64, desk: &Desk) -> Option<String> {
        let table = table(desk.lent_medium(), desk.slots);
        let differs = |cell: usize| u64::from_le_bytes(table[cell]) != self.durable[cell];
        if self.settled && value != STEP_CLEAN {
            return Some("recovery run again at once stored something".to_string());
        }
        if value < STEP_HEAD {
            let wrong = differs(value as usize);
            return wrong
                .then(|| format!("recovery stored a value in cell {value} that no committed transaction left"));
        }
        let wrong = (0..table.len()).find(|&cell| differs(cell));
        self.now.clone_from(&self.durable);
        self.settled = true;
        wrong.map(|cell| format!("recovery ended with cell {cell} not as the committed transactions say"))
    }
}

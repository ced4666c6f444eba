//! The state that goes from call to call.

use crate::layout::{sizes_in_rule, M};

#[derive(Clone, Copy, Debug, PartialEq, Eq)]
pub enum Phase {
    Idle,
    Run,
    Recovering,
}

#[derive(Clone, Copy, Debug, PartialEq, Eq)]
pub struct State {
    pub cells: u32,
    pub slots: u32,
    /// The last entry dropped.
    pub h: u32,
    /// The last entry stored.
    pub f: u32,
    /// The last entry made.
    pub l: u32,
    /// The last entry before the open transaction.
    pub o: u32,
    pub phase: Phase,
}

/// How many numbers a state is at the boundary: N, C, h, f, l, o, phase.
pub const NUMBERS: usize = 7;

impl State {
    /// A slice of another length, or whose phase is no phase, is no state.
    #[inline]
    pub fn of(numbers: &[u32]) -> Option<State> {
        let &[cells, slots, h, f, l, o, phase] = numbers else {
            return None;
        };
        let phase = match phase {
            0 => Phase::Idle,
            1 => Phase::Run,
            2 => Phase::Recovering,
            _ => return None,
        };
        Some(State { cells, slots, h, f, l, o, phase })
    }

    #[inline]
    pub fn numbers(self) -> [u32; NUMBERS] {
        [self.cells, self.slots, self.h, self.f, self.l, self.o, self.phase as u32]
    }

    #[inline]
    pub fn is_sound(&self) -> bool {
        sizes_in_rule(self.cells, self.slots)
            && self.h <= self.f
            && self.f <= self.l
            && self.l - self.h <= self.slots
            && match self.phase {
                Phase::Idle => self.o == self.l,
                Phase::Run => self.h <= self.o && self.o <= self.l && self.l - self.h < self.slots && self.l < M,
                Phase::Recovering => self.f == self.l && self.o == self.l,
            }
    }
}

//! The listing's text: a medium is recovered in memory and its table printed as key=value lines.

use crate::keeper::{BadRow, Keeper, STEP_HEAD};
use crate::layout::{table, word4, Fitment, Head, LARGEST, ROW};
use crate::state::NUMBERS;
use std::fmt::Write;

/// The image buffer is one byte longer than the largest medium, so that a longer one is noticed.
pub const IMAGE: usize = LARGEST + 1;

/// The listing of a medium, which is recovered where it stands.
pub fn text(keeper: &dyn Keeper, medium: &mut [u8]) -> String {
    match recover(keeper, medium) {
        Ok(()) => lines(medium),
        Err(refusal) => format!("refused={refusal}\n"),
    }
}

/// Recovers the medium where it stands, to recovery's end.
pub fn recover(keeper: &dyn Keeper, medium: &mut [u8]) -> Result<(), u32> {
    // Sizes that the keeper itself judges: those of the head, or of no medium.
    let Head { cells, slots, .. } = Head::of(medium).unwrap_or(Head { cells: 0, slots: 0, h: 0 });
    let (cells, slots) = (cells as usize, slots as usize);
    let (mut current, mut first, mut last) = (vec![0; cells], vec![0; cells], vec![0; cells]);
    let waiting = vec![0; ROW * slots];
    let (mut state, mut bad, mut value) = ([0; NUMBERS], BadRow::default(), 0);
    refused(keeper.recovery_start(medium, &mut current, &mut first, &mut last, &waiting, &mut state, &mut bad))?;
    for _ in 0..=cells {
        refused(keeper.recovery_step(&mut state, medium, &current, &mut value))?;
        if value >= STEP_HEAD {
            return Ok(());
        }
    }
    // Each cell is stored once at most: no keeper comes here, but one that is wrong must not hold up a comparison.
    Err(0)
}

fn refused(number: u32) -> Result<(), u32> {
    if number == 0 {
        Ok(())
    } else {
        Err(number)
    }
}

/// The lines of a recovered medium.
fn lines(medium: &[u8]) -> String {
    let (cells, slots, head) = (word4(medium, 0), word4(medium, 4), word4(medium, 8));
    let mut text = format!("cells={cells}\nslots={slots}\nhead={head}\n");
    for (cell, bytes) in table(medium, slots).iter().enumerate() {
        if let Some(Fitment { part, release }) = Fitment::of(u64::from_le_bytes(*bytes)) {
            writeln!(text, "cell={cell}\npart={part}\nrelease={release}").unwrap();
        }
    }
    text
}

//! The counter's two questions: two counters' answers side by side on drawn tables and spans.

use crate::counter::{self, Hand, Order};
use crate::layout::{Fitment, Head, HEAD, LEAST_SLOTS, ROW};
use crate::rng::Rng;
use crate::tool;
use std::collections::BTreeMap;
use std::fmt;

/// The number of an answer, 0 or the refusal, and its value: for an order the cell, for a part in hand its word from 1 on.
pub type Told = (u32, u64);

pub struct Question {
    pub medium: Vec<u8>,
    pub lowest: u32,
    pub count: u32,
    pub part: u64,
}

impl fmt::Display for Question {
    fn fmt(&self, out: &mut fmt::Formatter) -> fmt::Result {
        writeln!(
            out,
            "lowest {}, count {}, part {}, of a medium of {} bytes:",
            self.lowest,
            self.count,
            self.part,
            self.medium.len()
        )?;
        let cells: Vec<_> = match Head::of(&self.medium) {
            Some(_) => tool::fitments(&self.medium).collect(),
            None => Vec::new(),
        };
        cells.iter().enumerate().try_for_each(|(cell, fitment)| match fitment {
            Some(Fitment { part, release }) => writeln!(out, "  cell {cell}: {part}, {release}"),
            None => writeln!(out, "  cell {cell}: empty"),
        })
    }
}

/// A counter: its answers for the cell to order and for the part in hand.
pub type Counter = fn(&Question) -> [Told; 2];

/// The proved library.
#[cfg(feature = "counter")]
pub fn library(question: &Question) -> [Told; 2] {
    extern "C" {
        fn keeper_cell_to_order(medium: *const u8, medium_len: usize, lowest: u32, count: u32, value: *mut u64) -> u32;
        fn keeper_part_in_hand(
            medium: *const u8,
            medium_len: usize,
            lowest: u32,
            count: u32,
            part: u64,
            value: *mut u64,
        ) -> u32;
    }
    let Question { medium, lowest, count, part } = question;
    let (mut cell, mut word) = (u64::MAX, u64::MAX);
    // SAFETY: the slice is the vector's own, and each value outlives its call.
    let order = unsafe { keeper_cell_to_order(medium.as_ptr(), medium.len(), *lowest, *count, &mut cell) };
    let hand = unsafe { keeper_part_in_hand(medium.as_ptr(), medium.len(), *lowest, *count, *part, &mut word) };
    [(order, cell), (hand, word)]
}

fn word(hand: Hand) -> u64 {
    match hand {
        Hand::ThatOne => 1,
        Hand::Equal => 2,
        Hand::Older => 3,
        Hand::NotListed => 4,
    }
}

/// The second program.
pub fn second(question: &Question) -> [Told; 2] {
    let Question { medium, lowest, count, part } = question;
    let (lowest, count) = (u64::from(*lowest), u64::from(*count));
    let order = counter::order(medium, lowest, count).map(|Order { cell, .. }| (0, cell as u64));
    let hand = counter::hand(medium, lowest, count, *part).map(|hand| (0, word(hand)));
    [order.unwrap_or_else(|refusal| (refusal, 0)), hand.unwrap_or_else(|refusal| (refusal, 0))]
}

/// Ways in which a counter goes wrong. The comparison must find every one.
#[derive(Clone, Copy, Debug, PartialEq, Eq)]
pub enum Wrong {
    /// The release compared as text: 1.10 comes before 1.9.
    AsText,
    MinorFirst,
    LastAmongEquals,
    /// Lowest plus count in 32 bits.
    Wraps,
    OlderForEqual,
    /// A part judged by its first cell.
    FirstCell,
}

pub const WRONG: [Wrong; 6] =
    [Wrong::AsText, Wrong::MinorFirst, Wrong::LastAmongEquals, Wrong::Wraps, Wrong::OlderForEqual, Wrong::FirstCell];

/// What orders releases, for the counter that goes wrong so.
fn rank(wrong: Wrong, fitment: Fitment) -> (String, u32, u32) {
    let (major, minor) = (u32::from(fitment.release.major), u32::from(fitment.release.minor));
    match wrong {
        Wrong::AsText => (fitment.release.to_string(), 0, 0),
        Wrong::MinorFirst => (String::new(), minor, major),
        _ => (String::new(), major, minor),
    }
}

/// A counter that goes wrong in one way.
pub fn goes(wrong: Wrong, question: &Question) -> [Told; 2] {
    let Question { medium, lowest, count, part } = question;
    let Some(head) = Head::of(medium) else {
        return [(1, 0); 2];
    };
    let end = match wrong {
        Wrong::Wraps => u64::from(lowest.wrapping_add(*count)),
        _ => u64::from(*lowest) + u64::from(*count),
    };
    if end > u64::from(head.cells) {
        return [(4, 0); 2];
    }
    let span = tool::fitments(medium).enumerate().take(end as usize).skip(*lowest as usize);
    let listed: Vec<_> = span.filter_map(|(cell, fitment)| Some((cell, fitment?))).collect();
    let above = |next, best| match wrong {
        Wrong::LastAmongEquals => rank(wrong, next) >= rank(wrong, best),
        _ => rank(wrong, next) > rank(wrong, best),
    };
    let Some((cell, best)) =
        listed.iter().copied().reduce(|best, next| if above(next.1, best.1) { next } else { best })
    else {
        return [(12, 0); 2];
    };
    let mut own =
        listed.iter().filter(|(_, fitment)| u64::from(fitment.part) == *part).map(|&(_, fitment)| rank(wrong, fitment));
    let greatest = if wrong == Wrong::FirstCell { own.next() } else { own.max() };
    let hand = match greatest {
        _ if u64::from(best.part) == *part => Hand::ThatOne,
        None => Hand::NotListed,
        Some(rank_of) if rank_of < rank(wrong, best) || wrong == Wrong::OlderForEqual => Hand::Older,
        Some(_) => Hand::Equal,
    };
    [(0, cell as u64), (0, word(hand))]
}

/// A table of few parts and few releases, so that equals are met, on a medium of any size; now and then one out of rule.
fn medium(rng: &mut Rng) -> Vec<u8> {
    let cells = if rng.percent(2) { rng.between(1, 1024) } else { rng.between(1, 12) };
    let slots = rng.between(LEAST_SLOTS, LEAST_SLOTS + 4);
    let empty = rng.pick(&[0, 10, 30, 60, 95]);
    let mut medium = vec![0; HEAD + ROW * slots as usize + 8 * cells as usize];
    medium[..4].copy_from_slice(&cells.to_le_bytes());
    medium[4..8].copy_from_slice(&slots.to_le_bytes());
    let table = HEAD + ROW * slots as usize;
    for cell in medium[table..].chunks_exact_mut(8) {
        if !rng.percent(empty) {
            cell.copy_from_slice(&value(rng).to_le_bytes());
        }
    }
    match rng.below(40) {
        0 => medium.truncate(rng.index(table)),
        1 => medium[rng.index(HEAD)] ^= 1 << rng.below(8),
        2 => medium.push(0),
        _ => {}
    }
    medium
}

fn value(rng: &mut Rng) -> u64 {
    let release = rng.pick(&[(1, 9), (1, 10), (2, 0), (1, 65535), (0, 0), (0, 1), (10, 1)]);
    rng.pick(&[0u64, 40017, 40052, 40099, 4294967295]) | release.0 << 32 | release.1 << 48
}

/// A span in the table, at its end, one cell past it, of no cells, or of numbers whose sum passes 32 bits.
fn span(rng: &mut Rng, cells: u32) -> (u32, u32) {
    let lowest = rng.between(0, cells);
    match rng.below(10) {
        0 => (lowest, cells - lowest + 1),
        1 => (lowest, 0),
        2 => (cells, 0),
        3 => (u32::MAX - rng.between(0, 3), rng.between(0, 5)),
        4 => (lowest, rng.between(0, lowest).wrapping_sub(lowest)),
        5 => (lowest, cells - lowest),
        _ => (lowest, rng.between(0, cells - lowest)),
    }
}

pub fn question(seed: u64, k: u64) -> Question {
    let mut rng = Rng::of_run(seed ^ 0x0c0d, k);
    let medium = medium(&mut rng);
    let cells = Head::of(&medium).map_or(4, |head| head.cells);
    let (lowest, count) = span(&mut rng, cells);
    let part = match rng.below(8) {
        0 => rng.word(),
        1 => 1 << 32 | 40017,
        _ => rng.pick(&[0, 40017, 40052, 40099, 4294967295]),
    };
    Question { medium, lowest, count, part }
}

const WORDS: [&str; 5] = ["", "that one", "equal", "older", "not listed"];

/// What an answer is called, and the cases that a run must have met.
fn names(question: &Question, [order, hand]: [Told; 2]) -> Vec<String> {
    let Question { lowest, count, part, .. } = question;
    let sum = u64::from(*lowest) + u64::from(*count);
    let mut names = vec![
        format!("order: {}", if order.0 == 0 { "a cell".to_string() } else { order.0.to_string() }),
        format!("hand: {}", if hand.0 == 0 { WORDS[hand.1 as usize].to_string() } else { hand.0.to_string() }),
    ];
    if order.0 == 4 && sum > u64::from(u32::MAX) {
        names.push("a sum past 32 bits: 4".to_string());
    }
    if order.0 == 12 && *count == 0 {
        names.push("a span of no cells: 12".to_string());
    }
    if hand.0 == 0 && hand.1 != 4 && *part == 0 {
        names.push("part 0, listed".to_string());
    }
    if hand == (0, 4) && *part > u64::from(u32::MAX) {
        names.push("a part past 32 bits: not listed".to_string());
    }
    names
}

pub const CASES: [&str; 15] = [
    "order: a cell",
    "order: 1",
    "order: 4",
    "order: 12",
    "hand: that one",
    "hand: equal",
    "hand: older",
    "hand: not listed",
    "hand: 1",
    "hand: 4",
    "hand: 12",
    "a sum past 32 bits: 4",
    "a span of no cells: 12",
    "part 0, listed",
    "a part past 32 bits: not listed",
];

/// How often each case was met, or the first question to which the two answer differently.
pub fn compare(
    seed: u64,
    questions: u64,
    left: impl Fn(&Question) -> [Told; 2],
    right: impl Fn(&Question) -> [Told; 2],
) -> Result<BTreeMap<String, u64>, String> {
    let mut met = BTreeMap::new();
    for k in 0..questions {
        let question = question(seed, k);
        let (a, b) = (left(&question), right(&question));
        if a != b {
            return Err(format!("{question}  -> {a:?} against {b:?}"));
        }
        for name in names(&question, a) {
            *met.entry(name).or_insert(0) += 1;
        }
    }
    Ok(met)
}

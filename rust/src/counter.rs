//! The counter screen (ticket 1): the cell to order of a control unit, and what a part number in hand is.
//!
//! A unit owns a span of cells, lowest and count. Both questions read the table of a medium as it stands: it is to be one
//! whose recovery has ended, with no write-back since.

use crate::layout::{Fitment, Head, Release};
use crate::second::{Refusal, NO_SUCH_CELL, OUT_OF_RULE};
use crate::tool;

/// Every cell of the span is empty.
pub const NO_PART: Refusal = 12;

/// The cell to order and what it holds.
#[derive(Clone, Copy, Debug, PartialEq, Eq)]
pub struct Order {
    pub cell: usize,
    pub fitment: Fitment,
}

/// What a part number in hand is, beside the cell to order.
#[derive(Clone, Copy, Debug, PartialEq, Eq)]
pub enum Hand {
    ThatOne,
    /// Another part of the same release.
    Equal,
    Older,
    NotListed,
}

impl Hand {
    fn words(self) -> &'static str {
        match self {
            Hand::ThatOne => "that one",
            Hand::Equal => "equal",
            Hand::Older => "older",
            Hand::NotListed => "not listed",
        }
    }
}

/// Refusals 1 and 4.
fn judge_span(medium: &[u8], lowest: u64, count: u64) -> Result<(), Refusal> {
    let cells = Head::of(medium).ok_or(OUT_OF_RULE)?.cells;
    match lowest.checked_add(count) {
        Some(end) if end <= cells as u64 => Ok(()),
        _ => Err(NO_SUCH_CELL),
    }
}

/// The span's cells that are not empty, by rising number.
fn listed(medium: &[u8], lowest: u64, count: u64) -> impl Iterator<Item = Order> + '_ {
    let cells = tool::fitments(medium).enumerate().skip(lowest as usize).take(count as usize);
    cells.filter_map(|(cell, fitment)| fitment.map(|fitment| Order { cell, fitment }))
}

/// The cell to order: the one of greatest release, the lowest among equals.
pub fn order(medium: &[u8], lowest: u64, count: u64) -> Result<Order, Refusal> {
    judge_span(medium, lowest, count)?;
    let greater = |best: Order, next: Order| if next.fitment.release > best.fitment.release { next } else { best };
    listed(medium, lowest, count).reduce(greater).ok_or(NO_PART)
}

/// What the part in hand is; it counts by its greatest release in the span.
pub fn hand(medium: &[u8], lowest: u64, count: u64, part: u64) -> Result<Hand, Refusal> {
    let best = order(medium, lowest, count)?.fitment;
    let of_part = listed(medium, lowest, count).filter(|order| u64::from(order.fitment.part) == part);
    let greatest: Option<Release> = of_part.map(|order| order.fitment.release).max();
    Ok(match greatest {
        None => Hand::NotListed,
        Some(release) if release < best.release => Hand::Older,
        Some(_) if u64::from(best.part) == part => Hand::ThatOne,
        Some(_) => Hand::Equal,
    })
}

/// The answer to a file name, lowest, count and, if given, the part in hand, a line each.
pub fn text(input: &[u8]) -> String {
    tool::said(answer(input))
}

fn answer(input: &[u8]) -> Result<String, Refusal> {
    let mut lines = tool::lines(input);
    let medium = tool::file(lines.next())?;
    Head::of(&medium).ok_or(OUT_OF_RULE)?;
    let (lowest, count) = (tool::number(lines.next())?, tool::number(lines.next())?);
    let part = lines.next().map(|line| tool::number(Some(line))).transpose()?;
    // 4 goes before recovery's 2.
    judge_span(&medium, lowest, count)?;
    let medium = tool::recovered(&medium)?;
    let Order { cell, fitment } = order(&medium, lowest, count)?;
    let mut text = format!("cell={cell}\npart={}\nrelease={}\n", fitment.part, fitment.release);
    if let Some(part) = part {
        text += &format!("hand={}\n", hand(&medium, lowest, count, part)?.words());
    }
    Ok(text)
}

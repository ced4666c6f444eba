//! Month's end over all branches (ticket 13): the non-empty cells of many recovered media, counted by release.

use crate::layout::Release;
use crate::second::Refusal;
use crate::tool;
use std::fmt::Write;

/// So many releases, the first ones met, have counts of their own.
pub const COUNTED: usize = 64;

#[derive(Clone, Debug, Default, PartialEq, Eq)]
pub struct Month {
    /// Files named.
    pub stores: u64,
    /// Files refused.
    pub refused: u64,
    /// Non-empty cells of the files that were not.
    pub cells: u64,
    /// The releases with counts, in the order met.
    pub releases: Vec<(Release, u64)>,
    /// Cells of other releases.
    pub others: u64,
}

impl Month {
    /// Counts one more store, by its medium or the refusal in its place.
    pub fn add(&mut self, medium: Result<Vec<u8>, Refusal>) {
        self.stores += 1;
        match medium.and_then(|medium| tool::recovered(&medium)) {
            Ok(medium) => tool::fitments(&medium).flatten().for_each(|fitment| self.add_cell(fitment.release)),
            Err(_) => self.refused += 1,
        }
    }

    fn add_cell(&mut self, release: Release) {
        self.cells += 1;
        match self.releases.iter().position(|(met, _)| *met == release) {
            Some(at) => self.releases[at].1 += 1,
            None if self.releases.len() < COUNTED => self.releases.push((release, 1)),
            None => self.others += 1,
        }
    }

    fn lines(mut self) -> String {
        self.releases.sort();
        let mut text = format!("stores={}\nrefused={}\ncells={}\n", self.stores, self.refused, self.cells);
        for (release, count) in self.releases {
            writeln!(text, "release={release}\ncount={count}").unwrap();
        }
        writeln!(text, "others={}", self.others).unwrap();
        text
    }
}

/// The month's end of the files named, one a line; an empty line names none.
pub fn text(input: &[u8]) -> String {
    let mut month = Month::default();
    tool::lines(input).filter(|name| !name.is_empty()).for_each(|name| month.add(tool::file(Some(name))));
    month.lines()
}

//! The comparison itself: it finds every fault, and so does the ledger where both programs share one of the paper's.

use second::directed;
use second::draw::Draw;
use second::fault::{Fault, OF_COMMIT, OF_HOLES, OF_NAMING, OF_THE_PAPER};
use second::hits::Hits;
use second::keeper::{self, Keeper};
use second::play::{self, Play};
use second::rng::Rng;

/// The difference that a random history shows, if any.
fn difference(keepers: [&dyn Keeper; 2], mut draw: Draw, hits: &mut Hits) -> Option<String> {
    let mut play = Play::new(keepers, draw.opening);
    while let Some(event) = draw.next(play.desk()) {
        let difference = play.step(&event, hits);
        if difference.is_some() {
            return difference;
        }
    }
    None
}

/// The first of so many random histories that shows a difference, and the difference.
fn first_difference(keepers: [&dyn Keeper; 2], histories: u64, hits: &mut Hits) -> Option<(u64, String)> {
    (0..histories).find_map(|k| Some((k, difference(keepers, Draw::new(Rng::of_run(1, k)), hits)?)))
}

#[test]
fn equal_programs_show_no_difference_and_every_pair_is_reached() {
    let sound = keeper::second(Fault::None);
    let mut hits = Hits::default();
    assert_eq!(first_difference([sound, sound], 300, &mut hits), None);
    assert_eq!(hits.missed(), Vec::<String>::new());
}

#[test]
fn every_fault_shows() {
    for fault in OF_THE_PAPER.into_iter().chain(OF_NAMING).chain(OF_HOLES).chain(OF_COMMIT) {
        let keepers = [keeper::second(Fault::None), keeper::second(fault)];
        assert!(first_difference(keepers, 300, &mut Hits::default()).is_some(), "{fault:?}");
    }
}

#[test]
fn the_ledger_finds_every_fault_of_the_paper_that_both_share() {
    for fault in OF_THE_PAPER {
        let keepers = [keeper::second(fault), keeper::second(fault)];
        let found = first_difference(keepers, 2000, &mut Hits::default());
        println!("{fault:?}: {found:?}");
        assert!(found.is_some(), "{fault:?}");
    }
}

#[test]
fn four_rows_show_every_fault_about_a_hole() {
    for fault in OF_HOLES {
        let keepers = [keeper::second(Fault::None), keeper::second(fault)];
        let shows = directed::holes().any(|d| play::replay(keepers, d.opening, &d.events).is_some());
        assert!(shows, "{fault:?}");
    }
}

#[test]
fn four_rows_show_every_fault_of_a_commit() {
    let commits = directed::commits();
    for fault in OF_COMMIT {
        let keepers = [keeper::second(Fault::None), keeper::second(fault)];
        assert!(play::replay(keepers, commits.opening, &commits.events).is_some(), "{fault:?}");
    }
}

#[test]
fn a_commit_that_stores_or_answers_wrongly_shows_where_both_do() {
    // Which bad row is named, and 3 before 7, two equal keepers can't tell.
    let untold = [Fault::HighestWaiting, Fault::RowsBeforeOpen];
    for fault in OF_COMMIT.into_iter().filter(|fault| !untold.contains(fault)) {
        let keepers = [keeper::second(fault), keeper::second(fault)];
        let found = first_difference(keepers, 300, &mut Hits::default());
        println!("{fault:?}: {found:?}");
        assert!(found.is_some(), "{fault:?}");
    }
}

#[test]
fn the_ledger_finds_a_commit_that_is_not_stored() {
    // Desks as large as these are not looked at before each call: the ledger alone sees it.
    let large = |draw: &Draw| draw.opening.cells.max(draw.opening.slots) > 64;
    for fault in [Fault::CommitAlone, Fault::OneUnforced] {
        let keepers = [keeper::second(fault), keeper::second(fault)];
        let mut draws = (0..300).map(|k| Draw::new(Rng::of_run(1, k))).filter(large);
        let found = draws.find_map(|draw| difference(keepers, draw, &mut Hits::default()));
        assert!(found.as_ref().is_some_and(|found| found.starts_with("recovery")), "{fault:?}: {found:?}");
    }
}

#[test]
fn the_ledger_finds_a_hole_seen_in_a_clean_history() {
    for fault in [Fault::StaleCounts, Fault::PastM] {
        let keepers = [keeper::second(fault), keeper::second(fault)];
        let found = first_difference(keepers, 300, &mut Hits::default());
        assert!(found.is_some_and(|(_, difference)| difference.starts_with("recovery refused")), "{fault:?}");
    }
}

#[test]
fn a_row_named_beside_another_refusal_shows_where_both_name_it() {
    for fault in [Fault::BesideNine, Fault::LeftUnwritten] {
        let keepers = [keeper::second(fault), keeper::second(fault)];
        assert!(first_difference(keepers, 300, &mut Hits::default()).is_some(), "{fault:?}");
    }
}

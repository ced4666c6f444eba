//! The tools over recovered media, in the words of tickets 1, 3 and 13, and on the media of random histories.

use second::corpus;
use second::counter::{self, Hand, Order, NO_PART};
use second::directed::{A, B};
use second::layout::{
    medium_len, number_in, rows, slot_of, store_cell, store_row, write_row, Entry, Fitment, Head, Release, LARGEST, M,
    ROW,
};
use second::month::Month;
use second::second::{held_after, BROKEN_ROW, NO_SUCH_CELL, OUT_OF_RULE};
use second::tool;
use second::why::{decision, Decision, Reason, Walker};
use std::io::Write;
use std::process::{Command, Stdio};

const COUNTER: &str = env!("CARGO_BIN_EXE_counter");
const LISTING: &str = env!("CARGO_BIN_EXE_listing");
const WHY: &str = env!("CARGO_BIN_EXE_why");
const MONTH: &str = env!("CARGO_BIN_EXE_month");

fn run(program: &str, input: impl AsRef<[u8]>) -> String {
    let mut child = Command::new(program).stdin(Stdio::piped()).stdout(Stdio::piped()).spawn().unwrap();
    child.stdin.take().unwrap().write_all(input.as_ref()).unwrap();
    String::from_utf8(child.wait_with_output().unwrap().stdout).unwrap()
}

/// Writes a file of a name that no other test uses, and answers its path.
fn file(name: &str, bytes: &[u8]) -> String {
    let path = format!("{}/{name}", env!("CARGO_TARGET_TMPDIR"));
    std::fs::write(&path, bytes).unwrap();
    path
}

fn cell(part: u32, major: u16, minor: u16) -> u64 {
    part as u64 | (major as u64) << 32 | (minor as u64) << 48
}

/// A medium with four rows, an empty journal and this table.
fn with_table(table: &[u64]) -> Vec<u8> {
    let (cells, slots) = (table.len() as u32, 4);
    let mut medium = vec![0; medium_len(cells, slots)];
    Head { cells, slots, h: 0 }.store(&mut medium);
    table.iter().enumerate().for_each(|(cell, &value)| store_cell(&mut medium, slots, cell, value));
    medium
}

/// A medium of three cells with A in cell 0, and these entries from h+1 on.
fn with_journal(slots: u32, h: u32, entries: &[Entry]) -> Vec<u8> {
    let mut medium = vec![0; medium_len(3, slots)];
    Head { cells: 3, slots, h }.store(&mut medium);
    store_cell(&mut medium, slots, 0, A);
    for (entry, number) in entries.iter().zip(h + 1..=M) {
        let mut row = [0; ROW];
        write_row(&mut row, number, *entry);
        store_row(&mut medium, slot_of(number, slots), &row);
    }
    medium
}

fn update(cell: u32, old: u64, new: u64) -> Entry {
    Entry::Update { cell, old, new }
}

fn ordered(medium: &[u8], lowest: u64, count: u64) -> Result<usize, u32> {
    counter::order(medium, lowest, count).map(|order| order.cell)
}

// ---- ticket 1

#[test]
fn releases_count_as_numbers_major_then_minor() {
    for (older, newer) in [((1, 9), (1, 10)), ((1, 65535), (2, 0)), ((0, 1), (0, 2)), ((9, 9), (10, 0))] {
        let (older, newer) = (cell(7, older.0, older.1), cell(8, newer.0, newer.1));
        assert_eq!(ordered(&with_table(&[older, newer]), 0, 2), Ok(1));
        assert_eq!(ordered(&with_table(&[newer, older]), 0, 2), Ok(0));
    }
}

#[test]
fn the_lowest_among_equals_and_only_the_span() {
    let medium = with_table(&[cell(9, 3, 0), 0, cell(5, 1, 2), cell(4, 1, 2), cell(6, 1, 1), cell(9, 3, 0)]);
    assert_eq!([ordered(&medium, 1, 4), ordered(&medium, 3, 2), ordered(&medium, 0, 6)], [Ok(2), Ok(3), Ok(0)]);
    assert_eq!([ordered(&medium, 5, 1), ordered(&medium, 4, 1)], [Ok(5), Ok(4)]);
}

#[test]
fn a_part_in_hand() {
    let table = [cell(5, 1, 10), cell(6, 1, 9), cell(7, 1, 10), 0, cell(6, 1, 2), cell(7, 1, 1), cell(8, 2, 0)];
    let medium = with_table(&table);
    let hands = [5, 7, 6, 8, 0].map(|part| counter::hand(&medium, 0, 6, part));
    assert_eq!(hands, [Hand::ThatOne, Hand::Equal, Hand::Older, Hand::NotListed, Hand::NotListed].map(Ok));
    assert_eq!(counter::hand(&medium, 0, 7, 5), Ok(Hand::Older));
    // No part number: one that 32 bits would take for part 5.
    assert_eq!(counter::hand(&medium, 0, 6, 5 + (1 << 32)), Ok(Hand::NotListed));
}

#[test]
fn a_part_of_several_cells_counts_by_its_greatest_release() {
    let medium = with_table(&[cell(6, 1, 1), cell(5, 1, 9), cell(6, 1, 9), cell(5, 1, 2)]);
    assert_eq!(ordered(&medium, 0, 4), Ok(1));
    assert_eq!([5, 6].map(|part| counter::hand(&medium, 0, 4, part)), [Ok(Hand::ThatOne), Ok(Hand::Equal)]);
}

#[test]
fn part_0_with_a_release_and_a_part_of_release_0_are_listed() {
    let medium = with_table(&[0, cell(0, 0, 1), cell(3, 0, 0)]);
    let fitment = Fitment { part: 0, release: Release { major: 0, minor: 1 } };
    assert_eq!(counter::order(&medium, 0, 3), Ok(Order { cell: 1, fitment }));
    assert_eq!([0, 3].map(|part| counter::hand(&medium, 0, 3, part)), [Ok(Hand::ThatOne), Ok(Hand::Older)]);
    assert_eq!(ordered(&medium, 2, 1), Ok(2));
    assert_eq!(counter::hand(&medium, 2, 1, 0), Ok(Hand::NotListed));
}

#[test]
fn the_counters_refusals() {
    let medium = with_table(&[A, 0, 0]);
    let refused = |lowest, count| {
        let asked = counter::order(&medium, lowest, count).map(|order| order.cell);
        assert_eq!(counter::hand(&medium, lowest, count, 40017).err(), asked.err());
        asked
    };
    // Empty cells, and spans of 0 cells up to N.
    assert_eq!([refused(1, 2), refused(0, 0), refused(3, 0)], [Err(NO_PART); 3]);
    assert_eq!([refused(0, 4), refused(3, 1), refused(4, 0), refused(1, 3)], [Err(NO_SUCH_CELL); 4]);
    // Sums that would wrap.
    assert_eq!([refused(1, M as u64), refused(M as u64, 1), refused(M as u64, 2)], [Err(NO_SUCH_CELL); 3]);
    assert_eq!([refused(1, u64::MAX), refused(u64::MAX, 2)], [Err(NO_SUCH_CELL); 2]);
    for other in [&medium[..31], &medium[..medium.len() - 1], &[]] {
        assert_eq!(counter::order(other, 9, 9), Err(OUT_OF_RULE));
        assert_eq!(counter::hand(other, 9, 9, 1), Err(OUT_OF_RULE));
    }
    assert_eq!(ordered(&with_table(&[B; 1024]), 1023, 1), Ok(1023));
}

#[test]
fn the_counter_asks_the_recovered_table() {
    // B was written back and is undone; in cell 2 B is committed and not written back.
    let mut medium = with_journal(4, 0, &[update(2, 0, B), Entry::Commit, update(0, A, B)]);
    store_cell(&mut medium, 4, 0, B);
    let name = file("counter_recovered", &medium);
    assert_eq!(run(COUNTER, format!("{name}\n0\n3\n")), "cell=2\npart=40052\nrelease=1.10\n");
    assert_eq!(run(COUNTER, format!("{name}\n0\n3\n40017\n")), "cell=2\npart=40052\nrelease=1.10\nhand=older\n");
    assert_eq!(run(COUNTER, format!("{name}\r\n00\r\n3\r\n40052\r\n")).lines().last(), Some("hand=that one"));
    assert_eq!(run(COUNTER, format!("{name}\n0\n3\n1")).lines().last(), Some("hand=not listed"));
    assert_eq!(run(COUNTER, format!("{name}\n0\n1\n")), "cell=0\npart=40017\nrelease=1.9\n");
    assert_eq!(std::fs::read(name).unwrap(), medium);
    let equal = file("counter_equal", &with_table(&[B, cell(3, 1, 10)]));
    assert_eq!(run(COUNTER, format!("{equal}\n0\n2\n3\n")).lines().last(), Some("hand=equal"));
}

#[test]
fn the_counters_refused_lines() {
    let name = file("counter_refused", &with_table(&[A, 0]));
    for (lines, refusal) in [
        ("0\n3\n", 4),
        ("1\n1\n", 12),
        ("1\n1\n40017\n", 12),
        ("2\n0\n", 12),
        ("1\n4294967295\n", 4),
        ("1\n18446744073709551615\n", 4),
        ("0\n18446744073709551617\n", 4),
        ("92233720368547758080\n1\n", 4),
        ("", 4),
        ("0\n", 4),
        ("0\n\n", 4),
        ("\n2\n", 4),
        ("+0\n2\n", 4),
        ("0 \n2\n", 4),
        ("-0\n2\n", 4),
        ("0x0\n2\n", 4),
        ("0\n2\nA\n", 4),
        ("0\n2\n\n", 4),
        ("1\n1\nA\n", 4),
        ("0\n2\r\r\n", 4),
        ("0\n2\r", 4),
    ] {
        assert_eq!(run(COUNTER, format!("{name}\n{lines}")), format!("refused={refusal}\n"), "{lines:?}");
    }
    for no_file in ["", "\n0\n2\n", "/no/such/file\nA\n2\n", "/\n0\n2\n", "/dev/zero\n0\n2\n"] {
        assert_eq!(run(COUNTER, no_file), "refused=1\n");
    }
}

#[test]
fn the_counter_refuses_a_broken_row_after_the_span() {
    let mut medium = with_journal(4, 0, &[Entry::Commit]);
    medium[32 + 4] = 4;
    let name = file("counter_broken", &medium);
    assert_eq!(run(COUNTER, format!("{name}\n0\n4\n")), "refused=4\n");
    assert_eq!(run(COUNTER, format!("{name}\n0\n3\n")), "refused=2\n");
    assert_eq!(run(COUNTER, format!("{name}\n1\n0\n")), "refused=2\n");
}

// ---- ticket 3

/// The five lines for a cell of a medium.
fn why(name: &str, medium: &[u8], cell: u32) -> String {
    let name = file(name, medium);
    let text = run(WHY, format!("{name}\n{cell}\n"));
    assert_eq!(std::fs::read(name).unwrap(), medium);
    text
}

#[test]
fn no_entry_names_the_cell() {
    // The commit's zeros don't name cell 0.
    let medium = with_journal(4, 0, &[update(1, 0, B), Entry::Commit]);
    assert_eq!(why("why_table", &medium, 0), "cell=0\nvalue=40017:1.9\nreason=table\nentry=0\nend=0\n");
    assert_eq!(why("why_empty", &medium, 2), "cell=2\nvalue=empty\nreason=table\nentry=0\nend=0\n");
    // Entries up to h are dropped.
    let mut dropped = with_journal(4, 0, &[update(0, 0, B), Entry::Commit]);
    Head { cells: 3, slots: 4, h: 2 }.store(&mut dropped);
    assert_eq!(why("why_dropped", &dropped, 0), "cell=0\nvalue=40017:1.9\nreason=table\nentry=0\nend=0\n");
}

#[test]
fn written_by_its_last_update() {
    let entries = [update(0, A, 0), update(1, 0, A), update(0, 0, B), update(1, A, 0), Entry::Commit];
    let medium = with_journal(8, 20, &entries);
    assert_eq!(why("why_written", &medium, 0), "cell=0\nvalue=40052:1.10\nreason=written\nentry=23\nend=25\n");
    assert_eq!(why("why_emptied", &medium, 1), "cell=1\nvalue=empty\nreason=written\nentry=24\nend=25\n");
}

#[test]
fn restored_by_abort_to_before_its_first_update() {
    let mut medium = with_journal(8, 0, &[update(1, 0, A), update(0, A, B), update(0, B, 0), Entry::Abort]);
    store_cell(&mut medium, 8, 0, B);
    assert_eq!(why("why_aborted", &medium, 0), "cell=0\nvalue=40017:1.9\nreason=restored\nentry=2\nend=4\n");
    assert_eq!(why("why_aborted_empty", &medium, 1), "cell=1\nvalue=empty\nreason=restored\nentry=1\nend=4\n");
}

#[test]
fn restored_where_unfinished() {
    let entries = [update(0, A, cell(0, 0, 7)), Entry::Commit, update(0, cell(0, 0, 7), A), update(0, A, B)];
    let mut medium = with_journal(8, 0, &entries);
    store_cell(&mut medium, 8, 0, B);
    assert_eq!(why("why_unfinished", &medium, 0), "cell=0\nvalue=0:0.7\nreason=restored\nentry=3\nend=0\n");
    // A full journal that ends with the last entry number.
    let full = [Entry::Commit, update(0, A, B), Entry::Abort, update(0, A, B)];
    let medium = with_journal(4, M - 4, &full);
    assert_eq!(
        why("why_last_numbers", &medium, 0),
        format!("cell=0\nvalue=40017:1.9\nreason=restored\nentry={M}\nend=0\n")
    );
}

#[test]
fn the_last_transaction_that_updates_the_cell_decides() {
    let entries = [
        update(0, A, B),
        Entry::Commit,
        update(0, B, A),
        update(1, 0, A),
        Entry::Abort,
        update(1, 0, B),
        Entry::Commit,
        update(2, 0, A),
        Entry::Abort,
    ];
    let medium = with_journal(16, 0, &entries);
    assert_eq!(why("why_several_0", &medium, 0), "cell=0\nvalue=40052:1.10\nreason=restored\nentry=3\nend=5\n");
    assert_eq!(why("why_several_1", &medium, 1), "cell=1\nvalue=40052:1.10\nreason=written\nentry=6\nend=7\n");
    assert_eq!(why("why_several_2", &medium, 2), "cell=2\nvalue=empty\nreason=restored\nentry=8\nend=9\n");
}

#[test]
fn the_refusals_of_why_in_order() {
    let mut medium = with_journal(4, 0, &[Entry::Commit]);
    let sound = file("why_sound", &medium);
    medium[32 + 4] = 4;
    let broken = file("why_broken", &medium);
    medium[12] = 1;
    let no_medium = file("why_no_medium", &medium);
    for lines in [
        "",
        "\n",
        "3\n",
        "x\n",
        "-1\n",
        "+1\n",
        " 1\n",
        "1 \n",
        "1.0\n",
        "1\r",
        "18446744073709551616\n",
        "92233720368547758080\n",
    ] {
        assert_eq!(run(WHY, format!("{sound}\n{lines}")), "refused=4\n", "{lines:?}");
        assert_eq!(run(WHY, format!("{broken}\n{lines}")), "refused=4\n", "{lines:?}");
        assert_eq!(run(WHY, format!("{no_medium}\n{lines}")), "refused=1\n", "{lines:?}");
        assert_eq!(run(WHY, format!("/no/such/file\n{lines}")), "refused=1\n", "{lines:?}");
    }
    assert_eq!(run(WHY, format!("{broken}\n2\n")), "refused=2\n");
    assert_eq!([run(WHY, ""), run(WHY, "\n0\n"), run(WHY, "/\n0\n")], ["refused=1\n"; 3]);
    let overlong = file("why_overlong", &[medium, vec![0; LARGEST]].concat());
    assert_eq!(run(WHY, format!("{overlong}\n0\n")), "refused=1\n");
    for zeros in ["0\n", "0", "0\r\n", "0000000000000000000000000\n", "0\nmore\n"] {
        assert_eq!(run(WHY, format!("{sound}\n{zeros}")).lines().next(), Some("cell=0"), "{zeros:?}");
    }
    assert_eq!(run(WHY, format!("{sound}\r\n002\r\n")).lines().next(), Some("cell=2"));
}

// ---- ticket 13

#[test]
fn releases_rise_as_numbers() {
    // The second store's only release is 2.0, written back and undone, and committed in cell 2.
    let mut medium = with_journal(4, 0, &[update(2, 0, cell(1, 2, 0)), Entry::Commit, update(0, A, cell(9, 9, 9))]);
    store_cell(&mut medium, 4, 0, cell(9, 9, 9));
    let table = [B, 0, A, B, cell(0, 1, 2), cell(3, 0, 0), cell(4, 10, 1)];
    let names = [file("month_table", &with_table(&table)), file("month_journal", &medium)];
    let counts = [("0.0", 1), ("1.2", 1), ("1.9", 2), ("1.10", 2), ("2.0", 1), ("10.1", 1)];
    let lines: String = counts.iter().map(|(release, count)| format!("release={release}\ncount={count}\n")).collect();
    let text = format!("stores=2\nrefused=0\ncells=8\n{lines}others=0\n");
    assert_eq!(run(MONTH, names.join("\n")), text);
    assert_eq!(run(MONTH, format!("\n\r\n{}\r\n\n{}\r\n\n", names[0], names[1])), text);
    assert_eq!(std::fs::read(&names[1]).unwrap(), medium);
}

#[test]
fn no_store_and_no_cell() {
    assert_eq!(run(MONTH, "\n\n"), "stores=0\nrefused=0\ncells=0\nothers=0\n");
    let empty = file("month_empty", &with_table(&[0; 5]));
    assert_eq!(run(MONTH, format!("{empty}\n{empty}\n")), "stores=2\nrefused=0\ncells=0\nothers=0\n");
}

#[test]
fn the_first_64_releases_met_have_counts() {
    // Met from 2.63 down to 2.0; then 1.0, which is lower than all and comes too late.
    let first: Vec<u64> = (0..64).rev().map(|minor| cell(1, 2, minor)).collect();
    let names = [
        file("month_64", &with_table(&first)),
        file("month_65", &with_table(&[cell(1, 1, 0), cell(5, 2, 7), cell(1, 1, 0), cell(1, 3, 0)])),
    ];
    let lines: String = (0..64).map(|k| format!("release=2.{k}\ncount={}\n", 1 + (k == 7) as u32)).collect();
    let text = format!("stores=2\nrefused=0\ncells=68\n{lines}others=3\n");
    assert_eq!(run(MONTH, names.join("\n")), text);
    // In the other order 1.0 and 3.0 are met, and 2.1 and 2.0 come too late.
    let text = run(MONTH, format!("{}\n{}\n", names[1], names[0]));
    assert!(text.starts_with("stores=2\nrefused=0\ncells=68\nrelease=1.0\ncount=2\nrelease=2.2\ncount=1\n"));
    assert!(text.ends_with("release=2.63\ncount=1\nrelease=3.0\ncount=1\nothers=2\n"));
}

#[test]
fn refused_stores_count_as_refused() {
    let mut broken = with_journal(4, 0, &[Entry::Commit]);
    broken[32 + 4] = 4;
    let sound = with_table(&[A]);
    let mut largest = vec![0; LARGEST];
    Head { cells: 1024, slots: 1024, h: 0 }.store(&mut largest);
    let names = [
        file("month_broken", &broken),
        file("month_short", &sound[..sound.len() - 1]),
        file("month_long", &[sound.clone(), vec![0]].concat()),
        file("month_overlong", &[largest.clone(), vec![0]].concat()),
        "/no/such/file".to_string(),
        "/".to_string(),
        file("month_sound", &sound),
        file("month_largest", &largest),
    ];
    let text = "stores=8\nrefused=6\ncells=1\nrelease=1.9\ncount=1\nothers=0\n";
    assert_eq!(run(MONTH, names.join("\n")), text);
}

// ---- ticket 5

#[test]
fn every_tool_refuses_a_medium_with_a_hole() {
    let mut medium = with_journal(4, 5, &[update(0, A, B), Entry::Commit, update(1, 0, A), Entry::Commit]);
    medium[32 + 32 * slot_of(8, 4)..][..4].fill(0);
    let worn = file("worn", &medium);
    assert_eq!(run(LISTING, &medium), "refused=2\n");
    assert_eq!([run(WHY, format!("{worn}\n0\n")), run(WHY, format!("{worn}\n1\n"))], ["refused=2\n"; 2]);
    assert_eq!(run(WHY, format!("{worn}\n3\n")), "refused=4\n");
    assert_eq!(run(COUNTER, format!("{worn}\n0\n3\n")), "refused=2\n");
    assert_eq!(run(MONTH, format!("{worn}\n")), "stores=1\nrefused=1\ncells=0\nothers=0\n");
    // With the row after it gone too, the journal ends before both.
    medium[32 + 32 * slot_of(9, 4)..][..4].fill(0);
    assert_eq!(run(LISTING, &medium), "cells=3\nslots=4\nhead=7\ncell=0\npart=40052\nrelease=1.10\n");
}

// ---- random histories

/// Media of random histories that recovery accepts, each with its recovered copy.
fn accepted() -> impl Iterator<Item = (Vec<u8>, Vec<u8>)> {
    let media = (0..600).map(|k| corpus::medium(1, k));
    media.filter_map(|medium| tool::recovered(&medium).ok().map(|recovered| (medium, recovered)))
}

fn values(medium: &[u8]) -> Vec<u64> {
    let slots = Head::of(medium).unwrap().slots;
    second::layout::table(medium, slots).iter().map(|bytes| u64::from_le_bytes(*bytes)).collect()
}

/// Judges a decision by the entries before, in and after its transaction, and by the recovered value.
fn judge(decided: Decision, entries: &[(u32, Entry)], cell: u32, value: u64) {
    let names = |entry: &Entry| matches!(entry, Entry::Update { cell: named, .. } if *named == cell);
    let is_end = |entry: &Entry| !matches!(entry, Entry::Update { .. });
    let at = entries.iter().position(|(number, _)| *number == decided.entry).unwrap();
    let from = entries[..at].iter().rposition(|(_, entry)| is_end(entry)).map_or(0, |end| end + 1);
    let to = entries[at..].iter().position(|(_, entry)| is_end(entry)).map_or(entries.len(), |end| at + end);
    let end = entries.get(to).copied();
    assert_eq!(decided.end, end.map_or(0, |(number, _)| number));
    assert!(!entries[to..].iter().any(|(_, entry)| names(entry)), "a later entry names the cell");
    let Entry::Update { old, new, .. } = entries[at].1 else { panic!("no update") };
    let (held, own) = match decided.reason {
        Reason::Written => (new, &entries[at + 1..to]),
        _ => (old, &entries[from..at]),
    };
    assert_eq!((held, decided.reason == Reason::Written), (value, matches!(end, Some((_, Entry::Commit)))));
    assert!(!own.iter().any(|(_, entry)| names(entry)), "neither the last update nor the first");
}

#[test]
fn the_entry_named_holds_the_recovered_value() {
    // Cells by reason, those of unfinished transactions apart.
    let mut met = [0; 4];
    for (medium, recovered) in accepted() {
        let entries: Vec<(u32, Entry)> = Walker::new(&medium).unwrap().collect();
        for (cell, (value, on_medium)) in (0..).zip(values(&recovered).into_iter().zip(values(&medium))) {
            let decided = decision(Walker::new(&medium).unwrap(), cell);
            if decided.reason == Reason::Table {
                let named =
                    entries.iter().any(|(_, entry)| matches!(entry, Entry::Update { cell: c, .. } if *c == cell));
                assert_eq!((decided.entry, decided.end, value, named), (0, 0, on_medium, false));
            } else {
                judge(decided, &entries, cell, value);
            }
            met[decided.reason as usize + (decided.entry != 0 && decided.end == 0) as usize] += 1;
        }
    }
    assert!(met.iter().all(|&cells| cells > 100), "{met:?}");
}

#[test]
fn no_cell_of_the_span_goes_before_the_one_to_order() {
    for (_, recovered) in accepted() {
        let values = values(&recovered);
        for (lowest, count) in [(0, values.len()), (values.len() / 3, values.len() / 2)] {
            let rank = |cell: usize| (values[cell] >> 32 & 0xffff, values[cell] >> 48, values.len() - cell);
            let full = (lowest..lowest + count).filter(|&cell| values[cell] != 0);
            let expected = full.max_by_key(|&cell| rank(cell)).ok_or(NO_PART);
            assert_eq!(ordered(&recovered, lowest as u64, count as u64), expected);
        }
    }
}

#[test]
fn counts_are_the_non_empty_cells() {
    let (mut month, mut cells) = (Month::default(), 0);
    for (medium, recovered) in accepted() {
        month.add(Ok(medium));
        cells += values(&recovered).iter().filter(|&&value| value != 0).count() as u64;
    }
    let counted: u64 = month.releases.iter().map(|(_, count)| count).sum();
    assert_eq!([month.cells, counted + month.others], [cells; 2]);
    assert!(month.refused == 0 && month.releases.len() == 64 && month.others > 0);
}

/// Whether the walk ends at a hole.
fn has_hole(medium: &[u8]) -> bool {
    let Some(Head { slots, h, .. }) = Head::of(medium) else {
        return false;
    };
    let (rows, n) = (rows(medium, slots), Walker::new(medium).unwrap().last().map_or(h, |(n, _)| n).saturating_add(1));
    n <= h.saturating_add(slots) && number_in(&rows[slot_of(n, slots)]) != n && held_after(rows, h, n).is_some()
}

#[test]
fn the_media_drawn_are_accepted_and_refused() {
    let holes = (0..600).map(|k| corpus::medium(1, k)).filter(|medium| has_hole(medium));
    assert!(holes.map(|medium| assert_eq!(tool::recovered(&medium), Err(BROKEN_ROW))).count() > 5);
    let refusals: Vec<u32> = (0..600).filter_map(|k| tool::recovered(&corpus::medium(1, k)).err()).collect();
    let [ones, twos] = [1, 2].map(|number| refusals.iter().filter(|&&refusal| refusal == number).count());
    assert!(ones > 5 && twos > 5 && ones + twos == refusals.len() && refusals.len() < 150);
    assert_eq!(corpus::medium(3, 4), corpus::medium(3, 4));
    assert_ne!(corpus::medium(3, 4), corpus::medium(4, 4));
}

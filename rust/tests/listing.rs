//! The listing program on what standard input can hold.

use second::layout::{medium_len, store_cell, Head, LARGEST};
use std::io::Write;
use std::process::{Command, Stdio};

fn listed(input: &[u8]) -> String {
    let program = env!("CARGO_BIN_EXE_listing");
    let mut child = Command::new(program).stdin(Stdio::piped()).stdout(Stdio::piped()).spawn().unwrap();
    // The program stops reading after the largest medium and one byte: what is beyond need not be taken.
    let _ = child.stdin.take().unwrap().write_all(input);
    String::from_utf8(child.wait_with_output().unwrap().stdout).unwrap()
}

fn medium(cells: u32, slots: u32) -> Vec<u8> {
    let mut medium = vec![0; medium_len(cells, slots)];
    Head { cells, slots, h: 9 }.store(&mut medium);
    medium
}

#[test]
fn a_table_with_part_0() {
    let mut medium = medium(3, 4);
    store_cell(&mut medium, 4, 1, 2 << 32 | 11 << 48);
    store_cell(&mut medium, 4, 2, u64::MAX);
    let table = "cell=1\npart=0\nrelease=2.11\ncell=2\npart=4294967295\nrelease=65535.65535\n";
    assert_eq!(listed(&medium), format!("cells=3\nslots=4\nhead=9\n{table}"));
}

#[test]
fn the_largest_medium() {
    assert_eq!(listed(&medium(1024, 1024)), "cells=1024\nslots=1024\nhead=9\n");
}

#[test]
fn no_medium() {
    let whole = medium(2, 4);
    for input in
        [&[], &whole[..31], &whole[..whole.len() - 1], &[whole.clone(), vec![0]].concat(), &vec![0; LARGEST + 9]]
    {
        assert_eq!(listed(input), "refused=1\n");
    }
}

#[test]
fn a_broken_row() {
    let mut medium = medium(2, 4);
    medium[32 + 32..][..4].copy_from_slice(&10u32.to_le_bytes());
    assert_eq!(listed(&medium), "refused=2\n");
}

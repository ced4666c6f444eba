//! The measurements: each call on a desk where it can be made again and again, for two keepers on the same inputs.
//!
//! A sample makes the call in rounds over a small ring of states, each handed to one call; the ring is filled anew after each
//! round, which is part of the sample and costs a fraction of a nanosecond a call (the line "nothing" shows it, with an empty
//! call). The two keepers' samples alternate and are short, so that what else the machine does falls on few of them; what is
//! reported is the median of each keeper's samples and the median of the ratios of neighbouring ones.

use crate::keeper::{BadRow, Keeper};
use crate::layout::*;
use crate::rng::Rng;
use crate::state::NUMBERS;
use std::hint::black_box;
use std::time::{Duration, Instant};

#[derive(Clone, Copy, Debug, PartialEq, Eq)]
pub enum Op {
    Nothing,
    Format,
    StartFull,
    StartEmpty,
    StepCell,
    StepHead,
    Begin,
    BeginInRun,
    Read,
    Write,
    Commit,
    AbortOne,
    AbortFull,
    Force,
    WriteBack,
    Cut,
    Look,
    TableView,
    ReadRow,
    WriteRow,
}

pub const OPS: [(Op, &str); 20] = [
    (Op::Nothing, "nothing"),
    (Op::Read, "read"),
    (Op::Write, "write"),
    (Op::Commit, "commit of 1 update"),
    (Op::Force, "force"),
    (Op::Begin, "begin"),
    (Op::BeginInRun, "begin in run, 1 update"),
    (Op::AbortOne, "abort of 1 update"),
    (Op::AbortFull, "abort of C-1 updates"),
    (Op::WriteBack, "write-back"),
    (Op::Cut, "cut"),
    (Op::Look, "look"),
    (Op::TableView, "table view"),
    (Op::ReadRow, "read row"),
    (Op::WriteRow, "write row"),
    (Op::Format, "format"),
    (Op::StartEmpty, "recovery start, no entry"),
    (Op::StartFull, "recovery start, C entries"),
    (Op::StepCell, "recovery step, last cell"),
    (Op::StepHead, "recovery step, head"),
];

/// How many states stand ready for a round.
const RING: usize = 64;
const SAMPLES: usize = 41;
const SAMPLE: Duration = Duration::from_micros(250);

/// A desk on which a call can be made again and again.
struct Rig {
    medium: Vec<u8>,
    current: Vec<u64>,
    first: Vec<u32>,
    last: Vec<u32>,
    waiting: Vec<u8>,
    start: [u32; NUMBERS],
    ring: [[u32; NUMBERS]; RING],
    cells: [u32; RING],
    row: Row,
}

/// Where the journal begins: in the middle of the rows, so that it turns.
fn h_of(slots: u32) -> u32 {
    3 * slots + slots / 2
}

/// Entry k of transactions of six updates, committed and aborted in turn.
fn entry(rng: &mut Rng, k: u32, cells: u32) -> Entry {
    match k % 14 {
        6 => Entry::Commit,
        13 => Entry::Abort,
        _ => update(rng, cells),
    }
}

fn update(rng: &mut Rng, cells: u32) -> Entry {
    Entry::Update { cell: rng.between(0, cells - 1), old: rng.word(), new: rng.word() }
}

impl Rig {
    fn new(op: Op, cells: u32, slots: u32) -> Rig {
        let mut rng = Rng::new(9);
        let (n, h) = (cells as usize, h_of(slots));
        let mut rig = Rig {
            medium: vec![0; medium_len(cells, slots)],
            current: vec![0; n],
            first: vec![0; n],
            last: vec![0; n],
            waiting: vec![0; ROW * slots as usize],
            start: start_of(op, cells, slots),
            ring: [[0; NUMBERS]; RING],
            cells: [0; RING],
            row: [0; ROW],
        };
        rig.cells.fill_with(|| rng.between(0, cells - 1));
        let empty = op == Op::StartEmpty;
        Head { cells, slots, h }.store(&mut rig.medium);
        for k in 0..slots {
            let number = h + 1 + k;
            let slot = slot_of(number, slots);
            let mut row = [0; ROW];
            write_row(&mut row, if empty { number - slots } else { number }, entry(&mut rng, k, cells));
            store_row(&mut rig.medium, slot, &row);
            let open = update(&mut rng, cells);
            write_row(&mut rig.waiting.as_chunks_mut().0[slot], number, open);
        }
        write_row(&mut rig.row, 7, update(&mut rng, cells));
        if op == Op::Cut {
            write_row(row_mut(&mut rig.medium, slot_of(h + 1, slots)), h + 1, Entry::Commit);
        }
        rig
    }
}

fn row_mut(medium: &mut [u8], slot: usize) -> &mut Row {
    medium[HEAD + ROW * slot..].first_chunk_mut().unwrap()
}

/// The state that each call of a round is handed.
fn start_of(op: Op, cells: u32, slots: u32) -> [u32; NUMBERS] {
    let h = h_of(slots);
    match op {
        Op::Begin => [cells, slots, h, h, h, h, 0],
        Op::AbortFull => [cells, slots, h, h, h + slots - 1, h, 1],
        Op::StepCell | Op::StepHead => [cells, slots, h, h + slots, h + slots, h + slots, 2],
        Op::Force => [cells, slots, h, h, h + 2, h + 2, 0],
        Op::WriteBack | Op::Cut | Op::Look => [cells, slots, h, h + 2, h + 2, h + 1, 1],
        _ => [cells, slots, h, h, h + 1, h, 1],
    }
}

#[inline(never)]
fn nothing(state: &mut [u32]) -> u32 {
    black_box(state)[0] >> 31
}

/// One round: the call on every state of the ring. Answers the numbers of all calls or-ed, but of reading a row.
fn round<K: Keeper>(keeper: &K, op: Op, rig: &mut Rig) -> u32 {
    let Rig { medium, current, first, last, waiting, start, ring, cells, row } = rig;
    let (mut value, mut bad, mut fields, mut refused) = (0, BadRow::default(), [0; 4], 0);
    ring.fill(*start);
    let (slots, h) = (start[1], start[2]);
    macro_rules! each {
        (|$state:ident, $cell:ident| $call:expr) => {
            for ($state, &$cell) in ring.iter_mut().zip(cells.iter()) {
                let _ = (&$state, $cell);
                refused |= $call;
            }
        };
    }
    match op {
        Op::Nothing => each!(|state, cell| nothing(state)),
        Op::Format => each!(|state, cell| keeper.format(medium, state[0], state[1])),
        Op::StartFull | Op::StartEmpty => {
            each!(|state, cell| keeper.recovery_start(medium, current, first, last, waiting, state, &mut bad))
        }
        Op::StepCell => each!(|state, cell| {
            *current.last_mut().unwrap() ^= 1;
            keeper.recovery_step(state, medium, current, &mut value)
        }),
        Op::StepHead => each!(|state, cell| keeper.recovery_step(state, medium, current, &mut value)),
        Op::Begin | Op::BeginInRun => each!(|state, cell| keeper.begin(state, current, first, last, waiting, &mut bad)),
        Op::Read => each!(|state, cell| keeper.read(state, cell, current, &mut value)),
        Op::Write => {
            each!(|state, cell| keeper.write(state, cell, cell as u64, current, first, last, waiting))
        }
        Op::Commit => each!(|state, cell| keeper.commit(state, medium, waiting, &mut value, &mut bad)),
        Op::AbortOne | Op::AbortFull => {
            each!(|state, cell| keeper.abort(state, current, first, last, waiting, &mut bad))
        }
        Op::Force => each!(|state, cell| keeper.force(state, medium, waiting, &mut value, &mut bad)),
        Op::WriteBack => each!(|state, cell| {
            first[cell as usize] = 1;
            keeper.write_back(state, cell, medium, current, first, last, &mut value)
        }),
        Op::Cut => each!(|state, cell| keeper.cut(state, h + 1, medium, first, &mut bad)),
        Op::Look => each!(|state, cell| keeper.look(state, h + 1, medium, waiting, &mut value)),
        Op::TableView => each!(|state, cell| keeper.table_view(medium, &mut value)),
        Op::ReadRow => each!(|state, cell| keeper.read_row(row, slots.max(1024), 7, &mut fields) - 1),
        Op::WriteRow => each!(|state, cell| keeper.write_row(row, 7, 1, cell, value, 5)),
    }
    black_box((value, bad, fields));
    refused
}

/// Nanoseconds a call over so many rounds.
fn sample<K: Keeper>(keeper: &K, op: Op, rig: &mut Rig, rounds: u32) -> f64 {
    let (start, mut refused) = (Instant::now(), 0);
    for _ in 0..rounds {
        refused |= round(keeper, op, black_box(rig));
    }
    let time = start.elapsed();
    assert_eq!(refused, 0, "{op:?} was refused");
    time.as_nanos() as f64 / (rounds as usize * RING) as f64
}

/// How many rounds take a sample's time.
fn rounds_for<K: Keeper>(keeper: &K, op: Op, rig: &mut Rig) -> u32 {
    let best = (0..5).map(|_| sample(keeper, op, rig, 1)).fold(f64::MAX, f64::min);
    (SAMPLE.as_nanos() as f64 / (best * RING as f64)).clamp(1.0, 10_000.0) as u32
}

#[derive(Clone, Copy, Debug)]
pub struct Measured {
    pub library: f64,
    pub plain: f64,
    pub ratio: f64,
}

pub fn median(mut samples: Vec<f64>) -> f64 {
    samples.sort_by(f64::total_cmp);
    samples[samples.len() / 2]
}

/// Measures one call at one size.
pub fn measure<L: Keeper, P: Keeper>(library: &L, plain: &P, op: Op, cells: u32, slots: u32) -> Measured {
    // One rig for both: not even the buffers' places differ.
    let mut rig = Rig::new(op, cells, slots);
    let rounds = rounds_for(plain, op, &mut rig);
    let mut samples = [Vec::new(), Vec::new(), Vec::new()];
    for k in 0..SAMPLES {
        let (a, b);
        if k % 2 == 0 {
            a = sample(library, op, &mut rig, rounds);
            b = sample(plain, op, &mut rig, rounds);
        } else {
            b = sample(plain, op, &mut rig, rounds);
            a = sample(library, op, &mut rig, rounds);
        }
        for (list, value) in samples.iter_mut().zip([a, b, a / b]) {
            list.push(value);
        }
    }
    let [library, plain, ratio] = samples.map(median);
    Measured { library, plain, ratio }
}

/// Nanoseconds for a plain read, the sum, of the largest medium's bytes.
pub fn plain_read() -> f64 {
    let rig = Rig::new(Op::StartFull, MOST_CELLS, MOST_SLOTS);
    let once = || {
        let start = Instant::now();
        for _ in 0..16 {
            let sum: u64 = black_box(&rig.medium).iter().map(|&byte| byte as u64).sum();
            black_box(sum);
        }
        start.elapsed().as_nanos() as f64 / 16.0
    };
    median((0..SAMPLES).map(|_| once()).collect())
}

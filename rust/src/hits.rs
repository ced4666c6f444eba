//! What a run has reached: every call with every refusal that the papers allow it and every reason beside it, every kind of
//! answer, and every lent buffer with a wrong length. A run that missed one has not compared what it was to compare.

use crate::desk::Buffer::{self, Current, First, Last, Medium, Row, State as Numbers, Waiting};
use crate::desk::{Answer, Call, Desk, BUFFERS};
use crate::keeper::{STEP_CLEAN, STEP_HEAD};
use crate::layout::{
    self, number_in, read_row, rows, slot_of, word4, Entry, Flaw, Head, HEAD, LEAST_SLOTS, M, REASONS, ROW,
};
use crate::second::turn;
use crate::state::{Phase, State};
use std::fmt::Write;

/// A call's name, its allowed answers and the buffers it is lent.
struct Line {
    name: &'static str,
    numbers: &'static [u32],
    lent: &'static [Buffer],
}

const LINES: [Line; 15] = [
    Line { name: "format", numbers: &[0, 1], lent: &[Medium] },
    Line { name: "recovery start", numbers: &[0, 1, 2], lent: &[Medium, Current, First, Last, Waiting, Numbers] },
    Line { name: "recovery step", numbers: &[0, 1, 10], lent: &[Medium, Current, Numbers] },
    Line { name: "begin", numbers: &[0, 1, 5, 6, 7, 10], lent: &[Current, First, Last, Waiting, Numbers] },
    Line { name: "read", numbers: &[0, 1, 3, 4, 10], lent: &[Current, Numbers] },
    Line { name: "write", numbers: &[0, 1, 3, 4, 5, 6, 10], lent: &[Current, First, Last, Waiting, Numbers] },
    Line { name: "commit", numbers: &[0, 1, 3, 7, 10], lent: &[Medium, Waiting, Numbers] },
    Line { name: "abort", numbers: &[0, 1, 7, 10], lent: &[Current, First, Last, Waiting, Numbers] },
    Line { name: "force", numbers: &[0, 1, 7, 10], lent: &[Medium, Waiting, Numbers] },
    Line { name: "write-back", numbers: &[0, 1, 4, 8, 10], lent: &[Medium, Current, First, Last, Numbers] },
    Line { name: "cut", numbers: &[0, 1, 7, 9, 10], lent: &[Medium, First, Numbers] },
    Line { name: "look", numbers: &[0, 1, 10, 11], lent: &[Medium, Waiting, Numbers] },
    Line { name: "table view", numbers: &[0, 1], lent: &[Medium] },
    Line { name: "read row", numbers: &[0, 1, 2, 3], lent: &[Row] },
    Line { name: "write row", numbers: &[0, 1], lent: &[Row] },
];

/// The reasons that a call can give. Rows in their places are never too short, recovery start reads those with the number and
/// alone looks for holes, and only open rows have to be updates.
fn reasons(call: usize) -> &'static [usize] {
    match LINES[call].name {
        "recovery start" => &[3, 4, 5, 6, 7, 8, 10],
        "begin" | "abort" => &[2, 3, 4, 5, 6, 7, 8, 9],
        "commit" | "force" | "cut" => &[2, 3, 4, 5, 6, 7, 8],
        "read row" => &[1, 2, 3, 4, 5, 6, 7, 8],
        _ => &[],
    }
}

/// Kinds of answer that one number doesn't tell apart.
const CASES: [&str; 55] = [
    "recovery step: a cell",
    "recovery step: the head",
    "recovery step: clean",
    "begin in idle: 0",
    "begin in idle: 5",
    "begin in idle: 6",
    "begin in run: 0",
    "begin in run: 5",
    "begin in run: 6",
    "abort in idle: 0",
    "abort in run: 0",
    "force: an entry",
    "force: nothing left",
    "write-back: stored",
    "write-back: clean",
    "cut to h: 0",
    "cut above h: 0",
    "cut, p out of range: 9",
    "cut, an update: 9",
    "cut, a first: 9",
    "look: in the medium",
    "look: in the waiting rows",
    "an entry M made or stored",
    "open rows, two bad ones: 7",
    "stored rows, two bad ones: 2",
    "a row with two flaws: 2, 7",
    "commit, 1 row stored: 0",
    "commit, 2 rows stored: 0",
    "commit, 3 to 16 rows stored: 0",
    "commit, more than 16 rows stored: 0",
    "commit without an update: 0",
    "commit, its updates stored before: 0",
    "commit, some of its updates stored before: 0",
    "commit, an end before it waiting: 0",
    "commit, an end among its rows: 0",
    "commit, a bad row that is stored: 0",
    "commit in idle, a bad row: 3",
    "commit, the only row waiting bad: 7",
    "commit, the first of several bad: 7",
    "commit, one in the middle bad: 7",
    "commit, the last of several bad: 7",
    "commit, two bad ones: 7",
    "commit, a bad row of an entry before it: 7",
    "force after a commit: nothing left",
    "a hole, four rows: 2",
    "a hole, only the last place after it: 2",
    "a hole, M's row after it: 2",
    "a hole, a malformed row after it: 2",
    "a malformed row, a hole after it: 2",
    "no hole, a later number in another's place: 0",
    "no hole, h+C+1 in the place of h+1: 0",
    "no hole, a stale row: 0",
    "no hole, more rows than numbers: 0",
    "an unsound state: 1",
    "a phase that is none: 1",
];

const NUMBERS: usize = 12;
const HOLE: u32 = Flaw::Hole as u32;

pub struct Hits {
    answers: [[u64; NUMBERS]; LINES.len()],
    reasons: [[u64; REASONS.len()]; LINES.len()],
    lengths: [[u64; BUFFERS.len()]; LINES.len()],
    cases: [u64; CASES.len()],
    odd: Vec<String>,
}

fn line_of(call: Call) -> usize {
    match call {
        Call::Format { .. } => 0,
        Call::RecoveryStart => 1,
        Call::RecoveryStep => 2,
        Call::Begin => 3,
        Call::Read { .. } => 4,
        Call::Write { .. } => 5,
        Call::Commit => 6,
        Call::Abort => 7,
        Call::Force => 8,
        Call::WriteBack { .. } => 9,
        Call::Cut { .. } => 10,
        Call::Look { .. } => 11,
        Call::TableView => 12,
        Call::ReadRow { .. } => 13,
        Call::WriteRow { .. } => 14,
    }
}

impl Default for Hits {
    fn default() -> Self {
        Hits {
            answers: [[0; NUMBERS]; LINES.len()],
            reasons: [[0; REASONS.len()]; LINES.len()],
            lengths: [[0; BUFFERS.len()]; LINES.len()],
            cases: [0; CASES.len()],
            odd: Vec::new(),
        }
    }
}

/// What a call was made with: the state's numbers before it, and the sound state they are, if any.
pub struct Made {
    pub call: Call,
    pub lend: Option<(Buffer, usize)>,
    pub phase: u32,
    pub state: Option<State>,
    /// Whether the event before was an accepted commit.
    pub after_commit: bool,
}

impl Hits {
    /// Counts a call on a desk that it has been made on.
    pub fn count(&mut self, made: &Made, answer: Answer, desk: &Desk) {
        let at = line_of(made.call);
        let line = &LINES[at];
        if !line.numbers.contains(&answer.number) {
            self.odd.push(format!("{} answered {}", made.call, answer.number));
            return;
        }
        self.answers[at][answer.number as usize] += 1;
        if let Some(reason) = reason_of(made.call, answer) {
            if !reasons(at).contains(&reason) {
                self.odd.push(format!("{} answered {} with reason {reason}", made.call, answer.number));
                return;
            }
            self.reasons[at][reason] += 1;
        }
        if let Some((buffer, len)) = made.lend {
            let stateless = !line.lent.contains(&Numbers) || made.call == Call::RecoveryStart;
            let wrong = len != desk.proper_len(buffer) && line.lent.contains(&buffer);
            if wrong && (stateless || made.state.is_some()) {
                self.lengths[at][buffer as usize] += 1;
            }
        }
        let several = hole_cases(made, answer, desk).into_iter().chain(commit_cases(made, answer, desk));
        for name in case_of(made, answer, desk).into_iter().chain(several) {
            let case = CASES.iter().position(|&case| case == name).unwrap();
            self.cases[case] += 1;
        }
    }

    /// The pairs, lengths and cases never reached, and the answers that are not allowed.
    pub fn missed(&self) -> Vec<String> {
        let mut missed = self.odd.clone();
        for (at, line) in LINES.iter().enumerate() {
            let numbers = line.numbers.iter().filter(|&&number| self.answers[at][number as usize] == 0);
            missed.extend(numbers.map(|number| format!("{}: {number}", line.name)));
            let unsaid = reasons(at).iter().filter(|&&reason| self.reasons[at][reason] == 0);
            missed.extend(unsaid.map(|&reason| format!("{}: reason {reason}, {}", line.name, REASONS[reason])));
            let lent = line.lent.iter().filter(|&&buffer| self.lengths[at][buffer as usize] == 0);
            missed.extend(lent.map(|buffer| format!("{} lent a wrong length of {buffer:?}", line.name)));
        }
        let cases = CASES.iter().zip(&self.cases).filter(|(_, count)| **count == 0);
        missed.extend(cases.map(|(name, _)| name.to_string()));
        missed
    }

    pub fn table(&self) -> String {
        let mut text = format!("{:16}", "call \\ answer");
        (0..NUMBERS).for_each(|number| write!(text, "{number:>9}").unwrap());
        for (at, line) in LINES.iter().enumerate() {
            write!(text, "\n{:16}", line.name).unwrap();
            for number in 0..NUMBERS {
                if line.numbers.contains(&(number as u32)) {
                    write!(text, "{:>9}", self.answers[at][number]).unwrap();
                } else {
                    write!(text, "{:>9}", ".").unwrap();
                }
            }
        }
        self.reason_table(&mut text);
        write!(text, "\n\n{:16}", "wrong length").unwrap();
        BUFFERS.iter().for_each(|buffer| write!(text, "{:>9}", format!("{buffer:?}")).unwrap());
        for (at, line) in LINES.iter().enumerate() {
            write!(text, "\n{:16}", line.name).unwrap();
            for buffer in BUFFERS {
                if line.lent.contains(&buffer) {
                    write!(text, "{:>9}", self.lengths[at][buffer as usize]).unwrap();
                } else {
                    write!(text, "{:>9}", ".").unwrap();
                }
            }
        }
        text.push_str("\n\n");
        for (name, count) in CASES.iter().zip(&self.cases) {
            writeln!(text, "{name:46}{count:>9}").unwrap();
        }
        text
    }

    fn reason_table(&self, text: &mut String) {
        write!(text, "\n\n{:16}", "call \\ reason").unwrap();
        (1..REASONS.len()).for_each(|reason| write!(text, "{reason:>9}").unwrap());
        for (at, line) in LINES.iter().enumerate().filter(|(at, _)| !reasons(*at).is_empty()) {
            write!(text, "\n{:16}", line.name).unwrap();
            for reason in 1..REASONS.len() {
                if reasons(at).contains(&reason) {
                    write!(text, "{:>9}", self.reasons[at][reason]).unwrap();
                } else {
                    write!(text, "{:>9}", ".").unwrap();
                }
            }
        }
    }
}

/// The reason that an answer must give, if it must: beside 2 and 7, and where a row alone reads as nothing.
fn reason_of(call: Call, answer: Answer) -> Option<usize> {
    match (call, answer.number) {
        (Call::ReadRow { .. }, 0) => Some(answer.fields[3] as usize),
        (Call::ReadRow { .. }, _) => None,
        (_, 2 | 7) => Some(answer.bad.reason as usize),
        _ => None,
    }
}

/// Which of `CASES` a call is, if any.
fn case_of(made: &Made, answer: Answer, desk: &Desk) -> Option<&'static str> {
    if takes_state(made.call) && made.lend.is_none() && made.state.is_none() {
        return Some(if made.phase > 2 { "a phase that is none: 1" } else { "an unsound state: 1" });
    }
    if let (Call::RecoveryStart, 2) = (made.call, answer.number) {
        return if answer.bad.reason == HOLE { None } else { bad_stored(answer.bad.entry, desk) };
    }
    let state = made.state?;
    let run = state.phase == Phase::Run;
    match (made.call, answer.number) {
        (Call::RecoveryStep, 0) => Some(match answer.value {
            STEP_CLEAN => "recovery step: clean",
            STEP_HEAD => "recovery step: the head",
            _ => "recovery step: a cell",
        }),
        (Call::Begin, 0) => Some(if run { "begin in run: 0" } else { "begin in idle: 0" }),
        (Call::Begin, 5) => Some(if run { "begin in run: 5" } else { "begin in idle: 5" }),
        (Call::Begin, 6) => Some(if run { "begin in run: 6" } else { "begin in idle: 6" }),
        (Call::Begin | Call::Abort, 7) => bad_open(answer.bad.entry, &state, desk),
        (Call::Abort, 0) => Some(if run { "abort in run: 0" } else { "abort in idle: 0" }),
        (Call::Commit | Call::Force, 0) if answer.value == M as u64 => Some("an entry M made or stored"),
        (Call::Force, 0) => Some(if answer.value == 0 { "force: nothing left" } else { "force: an entry" }),
        (Call::WriteBack { .. }, 0) => Some(if answer.value == 0 { "write-back: clean" } else { "write-back: stored" }),
        (Call::Cut { p }, 0) => Some(if p == state.h { "cut to h: 0" } else { "cut above h: 0" }),
        (Call::Cut { p }, 9) => Some(why_no_cut(&state, p, desk)),
        (Call::Look { n }, 0) => Some(if n <= state.f { "look: in the medium" } else { "look: in the waiting rows" }),
        _ => None,
    }
}

fn takes_state(call: Call) -> bool {
    LINES[line_of(call)].lent.contains(&Numbers) && call != Call::RecoveryStart
}

fn why_no_cut(state: &State, p: u32, desk: &Desk) -> &'static str {
    if p < state.h || p > state.f || p > state.o {
        return "cut, p out of range: 9";
    }
    let update = p != state.h && {
        let row = &desk.medium[HEAD + ROW * slot_of(p, state.slots)..];
        matches!(read_row(row, state.cells, p), Ok(Entry::Update { .. }))
    };
    if update {
        "cut, an update: 9"
    } else {
        "cut, a first: 9"
    }
}

/// Refusal 7 of abort and begin, which name an entry.
fn bad_open(entry: u32, state: &State, desk: &Desk) -> Option<&'static str> {
    let waiting: &[layout::Row] = desk.waiting.as_chunks().0;
    let row = |number: u32| &waiting[slot_of(number, state.slots)];
    let bad = |number: u32| !matches!(read_row(row(number), state.cells, number), Ok(Entry::Update { .. }));
    if (entry..state.l).any(|n| bad(n + 1)) {
        return Some("open rows, two bad ones: 7");
    }
    two_flaws(row(entry), state.cells, entry)
}

/// Refusal 2 of recovery start, which names an entry that doesn't read.
fn bad_stored(entry: u32, desk: &Desk) -> Option<&'static str> {
    let Head { cells, slots, h } = Head::of(desk.lent_medium())?;
    let rows = rows(desk.lent_medium(), slots);
    let mut stored = turn(rows, h, M).zip(h..M).take_while(|(row, n)| number_in(row) == n + 1);
    if stored.any(|(row, n)| n >= entry && read_row(row, cells, n + 1).is_err()) {
        return Some("stored rows, two bad ones: 2");
    }
    two_flaws(&rows[slot_of(entry, slots)], cells, entry)
}

fn two_flaws(row: &layout::Row, cells: u32, number: u32) -> Option<&'static str> {
    let cell = word4(row, 8);
    let end_with = |at: usize, len: usize| matches!(row[4], 2 | 3) && row[at..at + len].iter().any(|&byte| byte != 0);
    let flaws = [
        number_in(row) != number,
        !(1..=3).contains(&row[4]),
        row[5..8] != [0; 3] || row[12..16] != [0; 4],
        cell >= cells,
        cell < cells && end_with(8, 4),
        end_with(16, 8),
        end_with(24, 8),
    ];
    (flaws.iter().filter(|&&flaw| flaw).count() > 1).then_some("a row with two flaws: 2, 7")
}

/// What a commit shows, and a force after one.
fn commit_cases(made: &Made, answer: Answer, desk: &Desk) -> Vec<&'static str> {
    let Some(State { cells, slots, f, l, o, .. }) = made.state else {
        return Vec::new();
    };
    let waiting: &[layout::Row] = desk.waiting.as_chunks().0;
    let read = |n: u32| read_row(&waiting[slot_of(n + 1, slots)], cells, n + 1);
    let bad = |n: u32| read(n).is_err();
    let end = |n: u32| matches!(read(n), Ok(Entry::Commit | Entry::Abort));
    let cases = match (made.call, answer.number, answer.bad.entry) {
        (Call::Commit, 0, _) => vec![
            ("commit, 1 row stored: 0", l == f),
            ("commit, 2 rows stored: 0", l - f == 1),
            ("commit, 3 to 16 rows stored: 0", (2..16).contains(&(l - f))),
            ("commit, more than 16 rows stored: 0", l - f >= 16),
            ("commit without an update: 0", o == l),
            ("commit, its updates stored before: 0", o < l && f == l),
            ("commit, some of its updates stored before: 0", o < f && f < l),
            ("commit, an end before it waiting: 0", f < o),
            ("commit, an end among its rows: 0", (f.max(o)..l).any(end)),
            ("commit, a bad row that is stored: 0", (o..f).any(bad)),
        ],
        (Call::Commit, 3, _) => vec![("commit in idle, a bad row: 3", (f..l).any(bad))],
        (Call::Commit, 7, named) => vec![
            ("commit, the only row waiting bad: 7", l == f + 1),
            ("commit, the first of several bad: 7", named == f + 1 && named < l),
            ("commit, one in the middle bad: 7", named > f + 1 && named < l),
            ("commit, the last of several bad: 7", named > f + 1 && named == l),
            ("commit, two bad ones: 7", (named..l).any(bad)),
            ("commit, a bad row of an entry before it: 7", named <= o),
        ],
        (Call::Force, 0, _) => {
            vec![("force after a commit: nothing left", made.after_commit && answer.value == 0)]
        }
        _ => Vec::new(),
    };
    cases.into_iter().filter_map(|(name, shown)| shown.then_some(name)).collect()
}

/// The stored rows as the search for a hole meets them.
struct Search {
    head: Head,
    /// The first number that its row doesn't hold, up to the lesser of h+C and M.
    n: u32,
    /// The rows after it, with the numbers that belong there.
    after: Vec<(u32, layout::Row)>,
}

impl Search {
    /// None where every row holds its number.
    fn of(medium: &[u8]) -> Option<Search> {
        let head = Head::of(medium)?;
        let rows = turn(rows(medium, head.slots), head.h, M).zip(head.h..M);
        let mut unheld = rows.map(|(row, n)| (n + 1, *row)).skip_while(|(n, row)| number_in(row) == *n);
        let (n, _) = unheld.next()?;
        Some(Search { head, n, after: unheld.collect() })
    }

    fn held(&self) -> impl Iterator<Item = &(u32, layout::Row)> {
        self.after.iter().filter(|(n, row)| number_in(row) == *n)
    }

    /// What a refusal with a hole shows.
    fn hole(&self) -> [(&'static str, bool); 4] {
        let Head { cells, slots, h } = self.head;
        let last = h.saturating_add(slots);
        let malformed = |(n, row): &(u32, layout::Row)| read_row(row, cells, *n).is_err();
        [
            ("a hole, four rows: 2", slots == LEAST_SLOTS),
            ("a hole, only the last place after it: 2", self.held().all(|(n, _)| *n == last)),
            ("a hole, M's row after it: 2", self.held().any(|(n, _)| *n == M)),
            ("a hole, a malformed row after it: 2", self.held().any(malformed)),
        ]
    }

    /// What an accepted start shows, of which a careless search would make a hole.
    fn no_hole(&self, rows: &[layout::Row]) -> [(&'static str, bool); 4] {
        let Head { slots, h, .. } = self.head;
        let last = h.saturating_add(slots);
        let beyond = h.checked_add(slots).and_then(|last| last.checked_add(1));
        let later = |row: &layout::Row| self.n < number_in(row) && number_in(row) <= last;
        let stale = |(n, row): &(u32, layout::Row)| *n > slots && number_in(row) == n - slots;
        [
            ("no hole, a later number in another's place: 0", rows.iter().any(later)),
            ("no hole, h+C+1 in the place of h+1: 0", beyond == Some(number_in(&rows[h as usize % rows.len()]))),
            ("no hole, a stale row: 0", self.after.iter().any(stale)),
            ("no hole, more rows than numbers: 0", M - h < slots),
        ]
    }
}

/// What a recovery start shows about holes.
fn hole_cases(made: &Made, answer: Answer, desk: &Desk) -> Vec<&'static str> {
    let medium = desk.lent_medium();
    let Some(search) = (made.call == Call::RecoveryStart).then(|| Search::of(medium)).flatten() else {
        return Vec::new();
    };
    let cases = match (answer.number, answer.bad.reason) {
        (0, _) => search.no_hole(rows(medium, search.head.slots)).to_vec(),
        (2, HOLE) => search.hole().to_vec(),
        (2, _) => vec![("a malformed row, a hole after it: 2", search.held().next().is_some())],
        _ => Vec::new(),
    };
    cases.into_iter().filter_map(|(name, shown)| shown.then_some(name)).collect()
}

//! compare [--seed S] [--calls N] [--questions Q] [--fault K]: leads the proved library and the second program through the same histories.
//!
//! After every call both answers, with the bad row that they name, both states and every byte of every buffer must be equal.
//! The directed histories come first, then random ones until N calls were compared; last, Q questions at the counter, on drawn
//! tables and spans. A difference ends the run with a shortened history; so does, at the end, an allowed answer or reason that
//! was never reached. With --fault K (1 to 39) the second program goes wrong in that way, and the run must find it: it then ends
//! with 0 where a difference was found. Built without the feature `library` the second program stands in for the library.

use second::counting::{self, Question, Told, Wrong};
use second::directed;
use second::draw::Draw;
use second::event::Event;
use second::fault::{self, Fault};
use second::hits::Hits;
use second::keeper::{self, Keeper};
use second::play::{self, Opening, Play};
use second::rng::Rng;
use std::process::ExitCode;
use std::time::{Duration, Instant};

#[cfg(feature = "library")]
fn library() -> (&'static str, &'static dyn Keeper) {
    ("the library", &second::library::Library)
}

#[cfg(not(feature = "library"))]
fn library() -> (&'static str, &'static dyn Keeper) {
    ("the second program (built without the library)", keeper::second(Fault::None))
}

#[cfg(feature = "counter")]
fn library_counter(question: &Question) -> [Told; 2] {
    counting::library(question)
}

#[cfg(not(feature = "counter"))]
fn library_counter(question: &Question) -> [Told; 2] {
    counting::second(question)
}

struct Options {
    seed: u64,
    calls: u64,
    questions: u64,
    fault: Fault,
    wrong: Option<Wrong>,
}

const USAGE: &str = "compare [--seed S] [--calls N] [--questions Q] [--fault K]
  K: 1 replay by label, 2 committed transactions only, 3 undo in rising order, 4 write-back by `first`,
     5 head before the last cell, 6 cut at an update; at the counter 7 release as text, 8 minor before major,
     9 the last among equals, 10 a sum that wraps, 11 older for equal, 12 a part by its first cell; of a bad row
     13 cell out of range before filler, 14 cell out of range not asked of an end, 15 not an update before left-overs,
     16 abort names the highest, 17 recovery start names the highest, 18 entry off by one, 19 a reason beside 9,
     20 reason and entry unwritten; of a hole 21 the last place not searched, 22 searched past h+C, 23 past M, 24 a stale
     row counts, 25 a number in another's place counts, 26 only a row that reads counts, 27 named at the later row,
     28 after a malformed later row, 29 before a malformed earlier one, 30 the journal ends there; of a commit 31 its own
     row alone stored, 32 its own row left to force, 33 rows before a bad one stored, 34 its waiting row left when refused,
     35 the highest bad row named, 36 the number before its own, 37 rows judged before 3, 38 no row judged, 39 the open
     transaction's rows judged";

fn options() -> Result<Options, String> {
    let mut options = Options { seed: 1, calls: 1_000_000, questions: 1_000_000, fault: Fault::None, wrong: None };
    let mut words = std::env::args().skip(1);
    while let Some(word) = words.next() {
        let number = words.next().and_then(|word| word.parse::<u64>().ok()).ok_or(USAGE)?;
        match word.as_str() {
            "--seed" => options.seed = number,
            "--calls" => options.calls = number,
            "--questions" => options.questions = number,
            "--fault" => (options.fault, options.wrong) = fault(number as usize).ok_or(USAGE)?,
            _ => return Err(USAGE.to_string()),
        }
    }
    Ok(options)
}

/// The keeper's way to go wrong, or the counter's.
fn fault(number: usize) -> Option<(Fault, Option<Wrong>)> {
    Some(match number {
        0 => (Fault::None, None),
        1..7 => (fault::OF_THE_PAPER[number - 1], None),
        7..13 => (Fault::None, Some(counting::WRONG[number - 7])),
        13..21 => (fault::OF_NAMING[number - 13], None),
        21..31 => (fault::OF_HOLES[number - 21], None),
        _ => (*fault::OF_COMMIT.get(number - 31)?, None),
    })
}

/// A history in which the two differ.
struct Found {
    name: String,
    opening: Opening,
    events: Vec<Event>,
}

struct Run {
    keepers: [&'static dyn Keeper; 2],
    options: Options,
    hits: Hits,
    calls: u64,
    histories: u64,
    start: Instant,
    said: Instant,
}

impl Run {
    fn directed(&mut self) -> Option<Found> {
        for directed::Directed { name, opening, events } in directed::all() {
            let mut play = Play::new(self.keepers, opening);
            let found = events.iter().position(|event| play.step(event, &mut self.hits).is_some());
            self.calls += play.calls;
            if let Some(at) = found {
                let events = events[..=at].to_vec();
                return Some(Found { name: format!("directed history: {name}"), opening, events });
            }
        }
        None
    }

    fn random(&mut self) -> Option<Found> {
        while self.calls < self.options.calls {
            let found = self.history();
            if found.is_some() {
                return found;
            }
            self.histories += 1;
            self.progress();
        }
        None
    }

    fn history(&mut self) -> Option<Found> {
        let mut draw = Draw::new(Rng::of_run(self.options.seed, self.histories));
        let opening = draw.opening;
        let mut play = Play::new(self.keepers, opening);
        let mut events = Vec::new();
        while let Some(event) = draw.next(play.desk()) {
            events.push(event);
            if play.step(&events[events.len() - 1], &mut self.hits).is_some() {
                let name = format!("seed {}, history {}", self.options.seed, self.histories);
                return Some(Found { name, opening, events });
            }
        }
        self.calls += play.calls;
        None
    }

    fn progress(&mut self) {
        if self.said.elapsed() > Duration::from_secs(5) {
            self.said = Instant::now();
            let seconds = self.start.elapsed().as_secs();
            eprintln!("{} calls, {} histories, {seconds} s", self.calls, self.histories);
        }
    }
}

fn report(found: Found, keepers: [&dyn Keeper; 2]) {
    let Found { name, opening, events } = found;
    println!("difference: {name}, at event {}", events.len());
    let events = play::shorten(keepers, opening, events);
    println!("shortened, on a desk of N={} C={} (rubbish {}):", opening.cells, opening.slots, opening.rubbish);
    events.iter().for_each(|event| println!("  {event}"));
    if let Some((_, difference)) = play::replay(keepers, opening, &events) {
        println!("  -> {difference}");
    }
}

/// Says what the run has reached; whether that is all.
fn complete(run: &Run) -> bool {
    println!("\n{}", run.hits.table());
    let missed = run.hits.missed();
    missed.iter().for_each(|pair| println!("never reached or not allowed: {pair}"));
    missed.is_empty()
}

/// The counter's questions; whether the run went as it should.
fn counter(options: &Options) -> bool {
    let (seed, questions, wrong) = (options.seed, options.questions, options.wrong);
    let right =
        |question: &Question| wrong.map_or_else(|| counting::second(question), |wrong| counting::goes(wrong, question));
    match counting::compare(seed, questions, library_counter, right) {
        Err(difference) => {
            println!("at the counter a difference: {difference}");
            wrong.is_some()
        }
        Ok(met) => {
            println!("{questions} questions at the counter: no difference");
            met.iter().for_each(|(name, times)| println!("  {name}: {times}"));
            let missed: Vec<_> = counting::CASES.iter().filter(|case| !met.contains_key(**case)).collect();
            missed.iter().for_each(|case| println!("never reached: {case}"));
            missed.is_empty() && wrong.is_none()
        }
    }
}

fn main() -> ExitCode {
    let options = match options() {
        Ok(options) => options,
        Err(usage) => {
            eprintln!("{usage}");
            return ExitCode::from(2);
        }
    };
    let (name, left) = library();
    let counted = counter(&options);
    if options.wrong.is_some() {
        return if counted { ExitCode::SUCCESS } else { ExitCode::FAILURE };
    }
    let fault = options.fault;
    println!("{name} against the second program, fault {fault:?}, seed {}", options.seed);
    let keepers = [left, keeper::second(fault)];
    let start = Instant::now();
    let mut run = Run { keepers, options, hits: Hits::default(), calls: 0, histories: 0, start, said: start };
    let found = run.directed().or_else(|| run.random());
    let seconds = start.elapsed().as_secs_f64();
    println!("{} calls compared in {} random histories, {seconds:.1} s", run.calls, run.histories);
    let good = match found {
        Some(found) => {
            report(found, keepers);
            fault != Fault::None
        }
        None => {
            println!("no difference");
            complete(&run) && fault == Fault::None
        }
    };
    if good && counted {
        ExitCode::SUCCESS
    } else {
        ExitCode::FAILURE
    }
}

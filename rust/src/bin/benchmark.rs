//! benchmark [--short] [--svg FILE] [--note TEXT]: nanoseconds of each call, the proved library beside the second program's plain Rust,
//! on the same inputs in one run. The note, such as the machine and the archive, is printed and put into the drawing. Built
//! without the feature `library` the second program stands in for the library. --short: one process, and no growth.
//! benchmark --raw: the table's measures of this process alone, one to a line.

use second::bench::{self, measure, median, Measured, Op, OPS};
use second::fault;
use second::keeper::{Keeper, Second};
use second::layout::LARGEST;
use second::plot::{self, Panel};
use std::hint::black_box;
use std::process::{Command, ExitCode};

#[cfg(feature = "library")]
const LIBRARY: second::library::Library = second::library::Library;
#[cfg(not(feature = "library"))]
const LIBRARY: Second<{ fault::NONE }> = Second;
const PLAIN: Second<{ fault::NONE }> = Second;

/// N = C in the table.
const SIZES: [u32; 3] = [4, 64, 1024];
/// What grows in the second table and the drawing, while the other size stays.
const GROWING: [u32; 5] = [4, 16, 64, 256, 1024];
const FIXED: u32 = 64;

/// Ratios above this are named once more.
const BAR: f64 = 1.1;

/// The table has the medians of so many processes: in each the buffers lie elsewhere, which alone can double a call of a few
/// nanoseconds.
const PROCESSES: usize = 5;

const USAGE: &str = "benchmark [--short] [--svg FILE] [--note TEXT] | --raw";

struct Options {
    svg: Option<String>,
    note: String,
    raw: bool,
    short: bool,
}

fn options() -> Option<Options> {
    let mut options = Options { svg: None, note: String::new(), raw: false, short: false };
    let mut words = std::env::args().skip(1);
    while let Some(word) = words.next() {
        match word.as_str() {
            "--svg" => options.svg = Some(words.next()?),
            "--note" => options.note = words.next()?,
            "--raw" => options.raw = true,
            "--short" => options.short = true,
            _ => return None,
        }
    }
    Some(options)
}

fn of(op: Op, cells: u32, slots: u32) -> Measured {
    measure(&LIBRARY, &PLAIN, op, cells, slots)
}

fn title() -> &'static str {
    if cfg!(feature = "library") {
        "The library beside plain Rust, call by call"
    } else {
        "Plain Rust beside itself (built without the library)"
    }
}

/// Every call at every N = C, in the table's order.
fn rows() -> impl Iterator<Item = (Op, &'static str, u32)> {
    OPS.into_iter().flat_map(|(op, name)| SIZES.map(|size| (op, name, size)))
}

fn print_raw() {
    for (op, _, size) in rows() {
        let Measured { library, plain, ratio } = of(op, size, size);
        println!("{library} {plain} {ratio}");
    }
}

/// The measures of a process of its own.
fn one_process() -> Option<Vec<Measured>> {
    let output = Command::new(std::env::current_exe().ok()?).arg("--raw").output().ok()?;
    let measured = |line: &str| {
        let mut numbers = line.split(' ').map(|word| word.parse().ok());
        Some(Measured { library: numbers.next()??, plain: numbers.next()??, ratio: numbers.next()?? })
    };
    String::from_utf8(output.stdout).ok()?.lines().map(measured).collect()
}

/// Each call at N = C, and recovery beside a plain read.
fn table(processes: &[Vec<Measured>]) {
    println!(
        "nanoseconds a call: library, plain Rust, ratio; the medians of {} processes' medians of alternating samples\n",
        processes.len()
    );
    print!("{:28}", "N = C");
    SIZES.iter().for_each(|size| print!("{size:>28}"));
    let (mut start, mut above, mut strays) = (f64::NAN, Vec::new(), Vec::new());
    for (k, (op, name, size)) in rows().enumerate() {
        let over = |part: fn(&Measured) -> f64| median(processes.iter().map(|list| part(&list[k])).collect());
        let (library, plain, ratio) = (over(|m| m.library), over(|m| m.plain), over(|m| m.ratio));
        let highest = processes.iter().map(|list| list[k].ratio).fold(ratio, f64::max);
        if size == SIZES[0] {
            print!("\n{name:28}");
        }
        print!("{library:>11.1}{plain:>10.1}{ratio:>7.2}");
        if ratio > BAR {
            above.push(format!("{name} at {size}: {ratio:.2}"));
        } else if highest > BAR {
            strays.push(format!("{name} at {size}: {highest:.2}"));
        }
        if (op, size) == (Op::StartFull, 1024) {
            start = library;
        }
    }
    let read = bench::plain_read();
    println!("\n\nrecovery start of the largest medium, full: {start:.0} ns; a plain read (sum) of its {LARGEST} bytes: {read:.0} ns");
    let named = |list: &[String]| if list.is_empty() { "none".to_string() } else { list.join(", ") };
    println!("ratios above {BAR}: {}", named(&above));
    println!("not so, but above it in one of the processes: {}", named(&strays));
}

fn growth() -> Vec<Panel> {
    let panel = |&(op, name): &(Op, &'static str)| Panel {
        name,
        by_cells: GROWING.map(|size| of(op, size, FIXED)).to_vec(),
        by_slots: GROWING.map(|size| of(op, FIXED, size)).to_vec(),
    };
    OPS.iter().map(panel).collect()
}

fn print_growth(panels: &[Panel]) {
    println!("\nthe library's nanoseconds as N grows (C = {FIXED}), and as C grows (N = {FIXED})\n");
    print!("{:28}", "");
    for name in ["N", "C"] {
        GROWING.iter().for_each(|size| print!("{:>9}", format!("{name}={size}")));
        print!("   ");
    }
    println!();
    for panel in panels {
        print!("{:28}", panel.name);
        for list in [&panel.by_cells, &panel.by_slots] {
            list.iter().for_each(|measured| print!("{:>9.1}", measured.library));
            print!("   ");
        }
        println!();
    }
}

fn main() -> ExitCode {
    let Some(options) = options() else {
        eprintln!("{USAGE}");
        return ExitCode::from(2);
    };
    // Whoever holds this could call the plain keeper with anything: so no call of it is compiled for the measuring loop's own
    // arguments, a length or a kind that is always the same, as none of the library's is.
    black_box::<&dyn Keeper>(&PLAIN);
    if options.raw {
        print_raw();
        return ExitCode::SUCCESS;
    }
    println!("{}\n{}\n", title(), options.note);
    let count = if options.short { 1 } else { PROCESSES };
    let Some(processes) = (0..count).map(|_| one_process()).collect::<Option<Vec<_>>>() else {
        eprintln!("benchmark: a process of its own did not end with its measures");
        return ExitCode::FAILURE;
    };
    table(&processes);
    if options.short {
        return ExitCode::SUCCESS;
    }
    let panels = growth();
    print_growth(&panels);
    let Some(file) = options.svg else {
        return ExitCode::SUCCESS;
    };
    let drawing = plot::svg(&panels[1..], &GROWING, FIXED, title(), &options.note);
    match std::fs::write(&file, drawing) {
        Ok(()) => ExitCode::SUCCESS,
        Err(error) => {
            eprintln!("benchmark: {file}: {error}");
            ExitCode::FAILURE
        }
    }
}

//! What a line costs: ours through the quick door and the given Rust, by turns in one process.
//!
//!     bench time NIGHT ROUNDS MICROSECONDS   tables of nanoseconds
//!     bench calls NIGHT                      calls each side once on each kind, for a tool that counts instructions
//!     bench counted NIGHT                    tables of instructions, from the counts on standard input in the order of `calls`
//!     bench stack NIGHT                      stack of the deepest call
mod kinds;
#[allow(dead_code)]
#[path = "../bindings/rust/src/sizes.rs"]
mod sizes;

use kinds::{Entry, Kind, GROWN, LENGTHS};
use pep508_rs::{MarkerTree, MarkerWarningKind, PackageName, Requirement, VerbatimUrl};
use sizes::{
    COMPARISONS_SIZE, LINE_FIGURES, LIST_SIZE, MARKER_FIGURES, MAX_LINE, MAX_WORDS, NORMALISE_FIGURES, WARNINGS_SIZE,
};
use std::ffi::c_void;
use std::hint::black_box;
use std::io::Read;
use std::str::FromStr;
use std::time::Instant;

extern "C" {
    fn hulmisker_line(
        line: *const u8,
        len: usize,
        figures: *mut [usize; LINE_FIGURES],
        extras: *mut [usize; LIST_SIZE],
        specifiers: *mut [usize; LIST_SIZE],
        comparisons: *mut [usize; COMPARISONS_SIZE],
        warnings: *mut [usize; WARNINGS_SIZE],
        words: *mut [u8; MAX_WORDS],
    ) -> u8;
    fn hulmisker_marker(
        line: *const u8,
        len: usize,
        figures: *mut [usize; MARKER_FIGURES],
        comparisons: *mut [usize; COMPARISONS_SIZE],
        warnings: *mut [usize; WARNINGS_SIZE],
        words: *mut [u8; MAX_WORDS],
    ) -> u8;
    fn hulmisker_normalise(
        name: *const u8,
        len: usize,
        out: *mut u8,
        room: usize,
        figures: *mut [usize; NORMALISE_FIGURES],
    ) -> u8;
    fn stack_used(call: extern "C" fn(*mut c_void), argument: *mut c_void) -> usize;
    fn counting_starts();
    fn counting_ends();
}

/// The arrays that a caller lends. They are used again for each line.
struct Lent {
    figures: [usize; LINE_FIGURES],
    extras: [usize; LIST_SIZE],
    specifiers: [usize; LIST_SIZE],
    comparisons: [usize; COMPARISONS_SIZE],
    warnings: [usize; WARNINGS_SIZE],
    words: [u8; MAX_WORDS],
    out: [u8; MAX_LINE],
}

impl Lent {
    fn new() -> Self {
        Self {
            figures: [0; LINE_FIGURES],
            extras: [0; LIST_SIZE],
            specifiers: [0; LIST_SIZE],
            comparisons: [0; COMPARISONS_SIZE],
            warnings: [0; WARNINGS_SIZE],
            words: [0; MAX_WORDS],
            out: [0; MAX_LINE],
        }
    }
}

/// Was the text accepted?
fn ours_takes(entry: Entry, text: &str, lent: &mut Lent) -> bool {
    let (at, len) = (text.as_ptr(), text.len());
    let mut few = [0; MARKER_FIGURES];
    let mut three = [0; NORMALISE_FIGURES];
    // Safe: each pointer is to as much as the function's type says, and only ours.
    let number = unsafe {
        match entry {
            Entry::Line => hulmisker_line(
                at,
                len,
                &mut lent.figures,
                &mut lent.extras,
                &mut lent.specifiers,
                &mut lent.comparisons,
                &mut lent.warnings,
                &mut lent.words,
            ),
            Entry::Marker => hulmisker_marker(
                at,
                len,
                &mut few,
                &mut lent.comparisons,
                &mut lent.warnings,
                &mut lent.words,
            ),
            Entry::Normalise => {
                hulmisker_normalise(at, len, lent.out.as_mut_ptr(), lent.out.len(), &mut three)
            }
        }
    };
    black_box((&few, &three, lent));
    number == 0
}

/// Was the text accepted? The answer is made on the heap, looked at, and freed.
fn rust_takes(entry: Entry, text: &str) -> bool {
    let mut warnings = 0;
    let mut reporter = |_: MarkerWarningKind, _: String| warnings += 1;
    let taken = match entry {
        Entry::Line => {
            black_box(Requirement::<VerbatimUrl>::parse_reporter(text, "", &mut reporter)).is_ok()
        }
        Entry::Marker => {
            black_box(MarkerTree::parse_reporter::<VerbatimUrl>(text, &mut reporter)).is_ok()
        }
        Entry::Normalise => black_box(PackageName::from_str(text)).is_ok(),
    };
    black_box(warnings);
    taken
}

/// Some lines, so often one after another. Answers how many were accepted.
fn ours_over(entry: Entry, lines: &[String], turns: usize, lent: &mut Lent) -> usize {
    let mut taken = 0;
    for _ in 0..turns {
        for line in lines {
            taken += usize::from(ours_takes(entry, black_box(line), lent));
        }
    }
    taken
}

fn rust_over(entry: Entry, lines: &[String], turns: usize) -> usize {
    let mut taken = 0;
    for _ in 0..turns {
        for line in lines {
            taken += usize::from(rust_takes(entry, black_box(line)));
        }
    }
    taken
}

/// What one line costs on each side.
#[derive(Clone, Copy)]
struct Cost {
    ours: f64,
    rust: f64,
}

fn least(times: &[f64]) -> f64 {
    times.iter().copied().fold(f64::INFINITY, f64::min)
}

fn median(times: &[f64]) -> f64 {
    let mut sorted = times.to_vec();
    sorted.sort_by(f64::total_cmp);
    sorted[sorted.len() / 2]
}

fn nanoseconds(work: impl FnOnce() -> usize) -> f64 {
    let start = Instant::now();
    black_box(work());
    start.elapsed().as_nanos() as f64
}

/// How often a line must be read to take so many nanoseconds.
fn turns_for(aim: f64, mut work: impl FnMut(usize) -> usize) -> usize {
    let mut turns = 1;
    loop {
        let taken = nanoseconds(|| work(turns));
        if taken >= aim / 4.0 {
            return ((turns as f64 * aim / taken) as usize).max(1);
        }
        turns *= 2;
    }
}

/// Many lines are timed in pieces, so that a piece is seldom interrupted where the machine is busy.
const PIECE: usize = 250;

/// A round's time for one line, in each piece.
fn times(kind: &Kind, turns: usize, mut work: impl FnMut(&[String], usize) -> usize) -> Vec<f64> {
    let all = (turns * kind.lines.len()) as f64;
    kind.lines.chunks(PIECE).map(|piece| nanoseconds(|| work(piece, turns)) / all).collect()
}

/// Over the pieces: the sum of what `of` makes of a piece's times in all rounds.
fn over_rounds(rounds: &[Vec<f64>], of: fn(&[f64]) -> f64) -> f64 {
    let pieces = 0..rounds[0].len();
    pieces.map(|i| of(&rounds.iter().map(|round| round[i]).collect::<Vec<_>>())).sum()
}

/// The least of several rounds, ours and the Rust's by turns; and how many times that the median is. A single line is read over and over in a round,
/// many lines once.
fn timed(kind: &Kind, rounds: usize, aim: f64, lent: &mut Lent) -> (Cost, f64) {
    let mut turns = (1, 1);
    if kind.lines.len() == 1 {
        turns.0 = turns_for(aim, |turns| ours_over(kind.entry, &kind.lines, turns, lent));
        turns.1 = turns_for(aim, |turns| rust_over(kind.entry, &kind.lines, turns));
    }
    let mut ours = Vec::new();
    let mut rust = Vec::new();
    for _ in 0..rounds {
        ours.push(times(kind, turns.0, |piece, turns| ours_over(kind.entry, piece, turns, lent)));
        rust.push(times(kind, turns.1, |piece, turns| rust_over(kind.entry, piece, turns)));
    }
    let cost = Cost { ours: over_rounds(&ours, least), rust: over_rounds(&rust, least) };
    let noise =
        f64::max(over_rounds(&ours, median) / cost.ours, over_rounds(&rust, median) / cost.rust);
    (cost, noise)
}

/// Three figures that count.
fn shown(x: f64) -> String {
    if x >= 100.0 {
        format!("{x:.0}")
    } else if x >= 10.0 {
        format!("{x:.1}")
    } else {
        format!("{x:.2}")
    }
}

fn table(kinds: &[Kind], costs: &[Cost], unit: &str) {
    println!("| Lines | bytes a line | ours: {unit} a line | a byte | Rust: {unit} a line | a byte | Rust / ours |");
    println!("|---|---|---|---|---|---|---|");
    for (kind, cost) in kinds.iter().zip(costs) {
        let bytes = kind.bytes() as f64 / kind.lines.len() as f64;
        println!(
            "| {} | {} | {} | {} | {} | {} | {} |",
            kind.name,
            shown(bytes),
            shown(cost.ours),
            shown(cost.ours / bytes),
            shown(cost.rust),
            shown(cost.rust / bytes),
            shown(cost.rust / cost.ours),
        );
    }
}

/// How many times the cost at the length before, for the two doublings. `slack` is what a measurement may err.
fn growth(costs: &[Cost], slack: f64) {
    println!(
        "| Lines | ours: 1,024 to 2,048 | 2,048 to 4,096 | Rust: 1,024 to 2,048 | 2,048 to 4,096 |"
    );
    println!("|---|---|---|---|---|");
    let mut faster = Vec::new();
    for ((name, _), at) in GROWN.iter().zip(costs.chunks(LENGTHS.len())) {
        let ours = [at[1].ours / at[0].ours, at[2].ours / at[1].ours];
        let rust = [at[1].rust / at[0].rust, at[2].rust / at[1].rust];
        println!("| {name} | {:.2} | {:.2} | {:.2} | {:.2} |", ours[0], ours[1], rust[0], rust[1]);
        for (side, ratio) in [("ours", ours[1]), ("the Rust", rust[1])] {
            if ratio > 2.0 * slack {
                faster.push(format!("{side}: {name} ({ratio:.2})"));
            }
        }
    }
    println!();
    println!("Faster than the length (over {:.2} from 2,048 to 4,096 bytes):", 2.0 * slack);
    for line in &faster {
        println!("- {line}");
    }
    if faster.is_empty() {
        println!("- none");
    }
}

/// In how many turns a single line is counted: what the heap does once in a while falls on one call in so many.
const COUNTED: usize = 8;

fn counted_turns(kind: &Kind) -> usize {
    if kind.lines.len() == 1 {
        COUNTED
    } else {
        1
    }
}

fn counted(work: impl FnOnce() -> usize) {
    // Safe: two functions without arguments.
    unsafe { counting_starts() };
    black_box(work());
    unsafe { counting_ends() };
}

/// Both must accept the same lines, or the tables compare different work.
fn same_lines_taken(all: &[Kind], lent: &mut Lent) {
    for kind in all {
        for line in &kind.lines {
            let (ours, rust) = (ours_takes(kind.entry, line, lent), rust_takes(kind.entry, line));
            assert_eq!(ours, rust, "accepted by one of the two only: {}: {line}", kind.name);
        }
    }
}

struct Call<'a> {
    kind: &'a Kind,
    line: &'a str,
    lent: &'a mut Lent,
}

extern "C" fn call_ours(call: *mut c_void) {
    // Safe: `deepest` hands over a `Call` that lives.
    let call = unsafe { &mut *call.cast::<Call>() };
    black_box(ours_takes(call.kind.entry, call.line, call.lent));
}

extern "C" fn call_rust(call: *mut c_void) {
    // Safe: as above.
    let call = unsafe { &mut *call.cast::<Call>() };
    black_box(rust_takes(call.kind.entry, call.line));
}

/// The most stack that a call on one of the lines takes, and for which kind.
fn deepest(all: &[Kind], side: extern "C" fn(*mut c_void), lent: &mut Lent) -> (usize, String) {
    let mut most = (0, String::new());
    for kind in all {
        // The night's lines differ little: its first ones will do.
        for line in kind.lines.iter().take(200) {
            let mut call = Call { kind, line, lent };
            let used = unsafe { stack_used(side, (&raw mut call).cast()) };
            if used > most.0 {
                most = (used, kind.name.clone());
            }
        }
    }
    most
}

fn stack(all: &[Kind], lent: &mut Lent) {
    for (side, call) in [("ours", call_ours as extern "C" fn(*mut c_void)), ("the Rust", call_rust)]
    {
        let (most, name) = deepest(all, call, lent);
        println!("- {side}: {most} bytes ({name})");
    }
    println!(
        "- the arrays that the caller lends to ours, besides: {} bytes",
        size_of::<Lent>() - 4096
    );
}

fn tables(short: &[Kind], grown: &[Kind], costs: &[Cost], unit: &str, slack: f64) {
    let (few, many) = costs.split_at(short.len());
    println!("## Everyday lines and full lists\n");
    table(short, few, unit);
    println!("\n## Lines of 4,096 bytes\n");
    let longest: Vec<Kind> = kinds::grown().into_iter().skip(2).step_by(3).collect();
    let their_costs: Vec<Cost> = many.iter().copied().skip(2).step_by(3).collect();
    table(&longest, &their_costs, unit);
    assert_eq!(many.len(), grown.len());
    println!("\n## How many times the cost when the length doubles\n");
    growth(many, slack);
}

fn counts_on_stdin() -> Vec<f64> {
    let mut text = String::new();
    std::io::stdin().read_to_string(&mut text).unwrap();
    text.split_whitespace().map(|word| word.parse().unwrap()).collect()
}

fn usage() -> ! {
    eprintln!("usage: bench time NIGHT ROUNDS MICROSECONDS | bench calls NIGHT | bench counted NIGHT | bench stack NIGHT");
    std::process::exit(2);
}

fn main() {
    let words: Vec<String> = std::env::args().skip(1).collect();
    let Some(night) = words.get(1) else { usage() };
    let night = std::fs::read_to_string(night).unwrap();
    let (short, grown) = (kinds::short(&night), kinds::grown());
    let all: Vec<&Kind> = short.iter().chain(&grown).collect();
    let mut lent = Lent::new();
    if words[0] != "counted" {
        same_lines_taken(&short, &mut lent);
        same_lines_taken(&grown, &mut lent);
    }
    match (words[0].as_str(), words.len()) {
        ("time", 4) => {
            let rounds: usize = words[2].parse().unwrap();
            let aim: f64 = words[3].parse::<f64>().unwrap() * 1000.0;
            let (costs, noise): (Vec<Cost>, Vec<f64>) =
                all.iter().map(|kind| timed(kind, rounds, aim, &mut lent)).unzip();
            tables(&short, &grown, &costs, "ns", 1.1);
            let worst = noise.iter().copied().fold(0.0, f64::max);
            println!("\nThe median round takes {} times the least one in the middle kind, {} times in the worst.",
                shown(median(&noise)), shown(worst));
        }
        ("calls", 2) => {
            for kind in all {
                let turns = counted_turns(kind);
                counted(|| ours_over(kind.entry, &kind.lines, turns, &mut lent));
                counted(|| rust_over(kind.entry, &kind.lines, turns));
            }
        }
        ("counted", 2) => {
            let counts = counts_on_stdin();
            assert_eq!(counts.len(), 2 * all.len());
            let per_line = |(kind, two): (&&Kind, &[f64])| {
                let lines = (kind.lines.len() * counted_turns(kind)) as f64;
                Cost { ours: two[0] / lines, rust: two[1] / lines }
            };
            let costs: Vec<Cost> = all.iter().zip(counts.chunks(2)).map(per_line).collect();
            tables(&short, &grown, &costs, "instructions", 1.02);
        }
        ("stack", 2) => {
            println!("## Stack of the deepest call\n");
            let both: Vec<Kind> = short.into_iter().chain(grown).collect();
            stack(&both, &mut lent);
        }
        _ => usage(),
    }
}

//! Reads requirements files and counts what stands in them.
//!
//!     cargo run --example night -- FILE..
//!
//! Blank lines and lines that start with `#` are passed over. Refused lines are shown on standard error with the place of the fault; the counts go to standard
//! output. The status is 0 also if lines were refused, and 2 if a file cannot be read.

use std::collections::BTreeMap;
use std::process::ExitCode;
use std::{env, fs};

use hulmisker::{normalise, Reader, Requirement, MAX_LINE};

#[derive(Default)]
struct Counts {
    lines: u64,
    passed_over: u64,
    accepted: u64,
    refused: BTreeMap<u8, u64>,
    extras: u64,
    specifiers: u64,
    urls: u64,
    with_marker: u64,
    comparisons: BTreeMap<&'static str, u64>,
    warnings: BTreeMap<u8, u64>,
    always: u64,
    names: BTreeMap<Vec<u8>, u64>,
}

/// A comment, or a line of white space alone: bytes 9 to 13 and 32.
fn is_passed_over(line: &[u8]) -> bool {
    line.starts_with(b"#") || line.iter().all(|byte| matches!(byte, 9..=13 | 32))
}

impl Counts {
    fn take_line(&mut self, reader: &mut Reader, line: &[u8]) {
        self.lines += 1;
        if is_passed_over(line) {
            self.passed_over += 1;
            return;
        }
        match reader.read(line) {
            Ok(requirement) => self.take(line, requirement),
            Err(refusal) => {
                eprintln!("{}", refusal.show(line));
                *self.refused.entry(refusal.fault.number()).or_default() += 1;
            }
        }
    }

    fn take(&mut self, line: &[u8], requirement: &Requirement) {
        self.accepted += 1;
        self.extras += requirement.extras().len() as u64;
        self.specifiers += requirement.specifiers().len() as u64;
        self.urls += u64::from(requirement.url().is_some());
        let marker = requirement.marker();
        self.with_marker += u64::from(marker.comparisons().len() + marker.warnings().len() > 0);
        for comparison in marker.comparisons() {
            *self.comparisons.entry(comparison.key.name()).or_default() += 1;
        }
        for warning in marker.warnings() {
            *self.warnings.entry(warning.kind.number()).or_default() += 1;
        }
        // What is asked for even if no comparison holds.
        self.always += u64::from(marker.holds(|_| false));
        // A normal form is no longer than its name, and the name of an accepted line can be normalised.
        let mut out = [0; MAX_LINE];
        if let Ok(normal) = normalise(requirement.name().of(line), &mut out) {
            *self.names.entry(normal.to_vec()).or_default() += 1;
        }
    }

    fn print(&self) {
        println!("lines {}", self.lines);
        println!("passed over {}", self.passed_over);
        println!("accepted {}", self.accepted);
        for (number, count) in &self.refused {
            println!("refused {number} {count}");
        }
        println!("extras {}", self.extras);
        println!("specifiers {}", self.specifiers);
        println!("URLs {}", self.urls);
        println!("with a marker {}", self.with_marker);
        for (key, count) in &self.comparisons {
            println!("compared {key} {count}");
        }
        for (kind, count) in &self.warnings {
            println!("warning {kind} {count}");
        }
        println!("asked for if no comparison holds {}", self.always);
        println!("names {}", self.names.len());
        let most = self
            .names
            .iter()
            .max_by(|a, b| a.1.cmp(b.1).then(b.0.cmp(a.0)));
        if let Some((name, count)) = most {
            println!("most often {} {count}", String::from_utf8_lossy(name));
        }
    }
}

fn main() -> ExitCode {
    let mut counts = Counts::default();
    let mut reader = Reader::new();
    for path in env::args_os().skip(1) {
        let text = match fs::read(&path) {
            Ok(text) => text,
            Err(error) => {
                eprintln!("night: {}: {error}", path.to_string_lossy());
                return ExitCode::from(2);
            }
        };
        for line in text.split_inclusive(|&byte| byte == b'\n') {
            let line = line
                .strip_suffix(b"\r\n")
                .or(line.strip_suffix(b"\n"))
                .unwrap_or(line);
            counts.take_line(&mut reader, line);
        }
    }
    counts.print();
    ExitCode::SUCCESS
}

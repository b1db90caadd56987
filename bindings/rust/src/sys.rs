//! The calls of the library, and the only `unsafe` of this crate. `bindings/c/hulmisker.h` says what each function asks of its caller and what it does.
//!
//! Why each call is sound, said once:
//! - A text goes as pointer and length of one slice. It is borrowed until the call returns, so nothing writes to it, and its pointer is not null even if it
//!   is empty.
//! - Each buffer that is written is a local or a field of just the size and layout that the header declares (`size_of` below), or a `&mut [u8]` with its own
//!   length. All are borrowed alone, so none overlaps another or the text.
//! - All buffers are initialised before the call, since a refusal writes to none but the figures.
//! - The library keeps no pointer, has no state and does not unwind.
//! - Any number that it might leave there is a good `usize` or `u8`: what a number means is looked at afterwards, by safe functions.

#![allow(unsafe_code)]

use core::mem::size_of;

use crate::marker::{StoredComparison, StoredWarning};
use crate::sizes::{
    CHECK_FIGURES, COMPARISONS_SIZE, EXTRAS_FIGURES, LINE_FIGURES, LIST_SIZE, MARKER_FIGURES,
    NORMALISE_FIGURES, RUN_FIGURES, VERSION_FIGURES, WARNINGS_SIZE,
};
use crate::{Fault, Marker, Refusal, Requirement, Span, Spans};
use crate::{MAX_COMPARISONS, MAX_LIST, MAX_WARNINGS, MAX_WORDS};

type Listed = [Span; MAX_LIST];
type Comparisons = [StoredComparison; MAX_COMPARISONS];
type Warnings = [StoredWarning; MAX_WARNINGS];
type Words = [u8; MAX_WORDS];

// The sizes that the header declares, in numbers.
const _: () = assert!(size_of::<Listed>() == size_of::<[usize; LIST_SIZE]>());
const _: () = assert!(size_of::<Comparisons>() == size_of::<[usize; COMPARISONS_SIZE]>());
const _: () = assert!(size_of::<Warnings>() == size_of::<[usize; WARNINGS_SIZE]>());

type VersionCheck = unsafe extern "C" fn(*const u8, usize, *mut [usize; VERSION_FIGURES]) -> u8;

extern "C" {
    fn hulmisker_line(
        line: *const u8,
        line_len: usize,
        figures: *mut [usize; LINE_FIGURES],
        extras: *mut Listed,
        specifiers: *mut Listed,
        comparisons: *mut Comparisons,
        warnings: *mut Warnings,
        words: *mut Words,
    ) -> u8;
    fn hulmisker_extras(
        line: *const u8,
        line_len: usize,
        figures: *mut [usize; EXTRAS_FIGURES],
        extras: *mut Listed,
    ) -> u8;
    fn hulmisker_marker(
        line: *const u8,
        line_len: usize,
        figures: *mut [usize; MARKER_FIGURES],
        comparisons: *mut Comparisons,
        warnings: *mut Warnings,
        words: *mut Words,
    ) -> u8;
    fn hulmisker_version(
        text: *const u8,
        text_len: usize,
        figures: *mut [usize; VERSION_FIGURES],
    ) -> u8;
    fn hulmisker_pattern(
        text: *const u8,
        text_len: usize,
        figures: *mut [usize; VERSION_FIGURES],
    ) -> u8;
    fn hulmisker_specifier(
        text: *const u8,
        text_len: usize,
        figures: *mut [usize; VERSION_FIGURES],
    ) -> u8;
    fn hulmisker_normalise(
        name: *const u8,
        name_len: usize,
        out: *mut u8,
        out_len: usize,
        figures: *mut [usize; NORMALISE_FIGURES],
    ) -> u8;
    fn hulmisker_check(
        program: *const u8,
        program_len: usize,
        count: usize,
        figures: *mut [usize; CHECK_FIGURES],
    ) -> u8;
    fn hulmisker_run(
        program: *const u8,
        program_len: usize,
        count: usize,
        assignment: u64,
        figures: *mut [usize; RUN_FIGURES],
    ) -> u8;
}

/// What a returned number and the first two figures say.
fn verdict(number: u8, start: usize, len: usize) -> Result<(), Refusal> {
    if number == 0 {
        return Ok(());
    }
    match Fault::from_number(number) {
        Some(fault) => Err(Refusal {
            fault,
            span: Span { start, len },
        }),
        // The contracts say that the number is that of a fault (`faultNumber` in crates/refusal).
        None => unreachable!(
            "no refusal has the number {number}: is libgateway.a the archive of this repository?"
        ),
    }
}

/// Reads into `found`; a refusal leaves it as it was.
pub(crate) fn line(line: &[u8], found: &mut Requirement) -> Result<(), Refusal> {
    let mut figures = [0; LINE_FIGURES];
    // SAFETY: a borrowed slice, a local, and five fields of one struct that is borrowed alone, each of the declared size; see above.
    let number = unsafe {
        hulmisker_line(
            line.as_ptr(),
            line.len(),
            &mut figures,
            &mut found.extras.spans,
            &mut found.specifiers.spans,
            &mut found.marker.comparisons,
            &mut found.marker.warnings,
            &mut found.marker.program.words,
        )
    };
    let [at, at_len, name, name_len, has_url, url, url_len, extras, specifiers, kept, warned, words] =
        figures;
    verdict(number, at, at_len)?;
    found.name = Span {
        start: name,
        len: name_len,
    };
    found.url = (has_url != 0).then_some(Span {
        start: url,
        len: url_len,
    });
    found.extras.count = extras;
    found.specifiers.count = specifiers;
    found.marker.counted(kept, warned, words);
    Ok(())
}

/// Reads into `found`; a refusal leaves it as it was.
pub(crate) fn extras(line: &[u8], found: &mut Spans) -> Result<(), Refusal> {
    let mut figures = [0; EXTRAS_FIGURES];
    // SAFETY: a borrowed slice, a local, and a field that is borrowed alone, each of the declared size; see above.
    let number =
        unsafe { hulmisker_extras(line.as_ptr(), line.len(), &mut figures, &mut found.spans) };
    let [at, at_len, count] = figures;
    verdict(number, at, at_len)?;
    found.count = count;
    Ok(())
}

/// Reads into `found`; a refusal leaves it as it was.
pub(crate) fn marker(line: &[u8], found: &mut Marker) -> Result<(), Refusal> {
    let mut figures = [0; MARKER_FIGURES];
    // SAFETY: a borrowed slice, a local, and three fields of one struct that is borrowed alone, each of the declared size; see above.
    let number = unsafe {
        hulmisker_marker(
            line.as_ptr(),
            line.len(),
            &mut figures,
            &mut found.comparisons,
            &mut found.warnings,
            &mut found.program.words,
        )
    };
    let [at, at_len, kept, warned, words] = figures;
    verdict(number, at, at_len)?;
    found.counted(kept, warned, words);
    Ok(())
}

fn checked(by: VersionCheck, text: &[u8]) -> Result<(), Refusal> {
    let mut figures = [0; VERSION_FIGURES];
    // SAFETY: `by` is one of the three functions below; a borrowed slice, and a local of the declared size; see above.
    let number = unsafe { by(text.as_ptr(), text.len(), &mut figures) };
    let [at, at_len] = figures;
    verdict(number, at, at_len)
}

pub(crate) fn version(text: &[u8]) -> Result<(), Refusal> {
    checked(hulmisker_version, text)
}

pub(crate) fn pattern(text: &[u8]) -> Result<(), Refusal> {
    checked(hulmisker_pattern, text)
}

pub(crate) fn specifier(text: &[u8]) -> Result<(), Refusal> {
    checked(hulmisker_specifier, text)
}

/// The length of what was written.
pub(crate) fn normalise(name: &[u8], out: &mut [u8]) -> Result<usize, Refusal> {
    let mut figures = [0; NORMALISE_FIGURES];
    // SAFETY: a borrowed slice, a slice that is borrowed alone, with its own length, and a local of the declared size; see above.
    let number = unsafe {
        hulmisker_normalise(
            name.as_ptr(),
            name.len(),
            out.as_mut_ptr(),
            out.len(),
            &mut figures,
        )
    };
    let [at, at_len, len] = figures;
    verdict(number, at, at_len)?;
    Ok(len)
}

pub(crate) fn check(program: &[u8], count: usize) -> Result<(), Refusal> {
    let mut figures = [0; CHECK_FIGURES];
    // SAFETY: a borrowed slice, and a local of the declared size; see above.
    let number = unsafe { hulmisker_check(program.as_ptr(), program.len(), count, &mut figures) };
    let [at, at_len] = figures;
    verdict(number, at, at_len)
}

pub(crate) fn run(program: &[u8], count: usize, assignment: u64) -> Result<bool, Refusal> {
    let mut figures = [0; RUN_FIGURES];
    // SAFETY: a borrowed slice, and a local of the declared size; see above.
    let number = unsafe {
        hulmisker_run(
            program.as_ptr(),
            program.len(),
            count,
            assignment,
            &mut figures,
        )
    };
    let [at, at_len, answer] = figures;
    verdict(number, at, at_len)?;
    Ok(answer != 0)
}

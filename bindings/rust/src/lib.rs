//! Reads Python requirement lines (PEP 508, PEP 440) and their environment markers.
//!
//! The work is done by the functions of `crates/gateway`, written in Rattle and proved to answer what their definitions say, for every input. This crate is a
//! thin layer over them: it lends the buffers, and gives numbers their names. "Document 01" is the paper that decides what is read and what is
//! refused, and with which of the numbers 1 to 31 (see the repository's README).
//!
//! ```
//! use hulmisker::{read_line, Key, Operator};
//!
//! let line = br#"requests [security,tests] >= 2.8.1, == 2.8.* ; python_version > "3.8""#;
//! let requirement = read_line(line).unwrap();
//! assert_eq!(requirement.name().of(line), b"requests");
//! assert_eq!(requirement.extras()[1].of(line), b"tests");
//! assert_eq!(requirement.specifiers().len(), 2);
//!
//! let marker = requirement.marker();
//! let comparison = marker.comparison(0).unwrap();
//! assert_eq!((comparison.key, comparison.operator), (Key::PythonVersion, Operator::Greater));
//! assert_eq!(comparison.literal.of(line), b"3.8");
//! assert!(marker.holds(|_| true));
//!
//! let line = b"foo-;";
//! let refusal = read_line(line).unwrap_err();
//! assert_eq!(refusal.fault.number(), 5);
//! assert_eq!(refusal.show(line).to_string(), "a name ends with a letter or digit\nfoo-;\n   ^");
//! ```
//!
//! Nothing is allocated and the library keeps nothing between calls; all functions may be called from any number of threads. Answers hold [`Span`]s of the line and not
//! copies, and do not borrow it: the caller keeps the line beside them. The crate needs no `std`. A call takes less than 32 KiB of stack, and the answers of
//! [`read_line`] and [`read_marker`] are some 5 KB.

#![no_std]
#![deny(unsafe_code, unsafe_op_in_unsafe_fn, missing_docs)]

#[cfg(not(target_pointer_width = "64"))]
compile_error!("hulmisker: the library is for machines with 64-bit addresses");

mod codes;
mod fault;
mod marker;
mod program;
mod requirement;
mod sizes;
mod span;
mod sys;

pub use codes::{ExtraKind, Key, Operator, Sort, WarningKind};
pub use fault::{Fault, Refusal, Shown};
pub use marker::{read_marker, Comparison, Marker, Warning};
pub use program::{check, run, Program};
pub use requirement::{read_extras, read_line, Reader, Requirement, Spans};
pub use sizes::{
    MAX_COMPARISONS, MAX_DEPTH, MAX_LINE, MAX_LIST, MAX_VALUES, MAX_WARNINGS, MAX_WORDS,
};
pub use span::Span;

/// Whether a text is a version by PEP 440. Refuses with [`Fault::TooLong`], [`Fault::NotAscii`] or [`Fault::VersionBad`].
pub fn check_version(text: &[u8]) -> Result<(), Refusal> {
    sys::version(text)
}

/// Whether a text is a version, or epoch and release and `.*`. Refuses as [`check_version`] does.
pub fn check_pattern(text: &[u8]) -> Result<(), Refusal> {
    sys::pattern(text)
}

/// Whether a text is an operator and a version or pattern that may go with it. Refuses as [`check_version`] does.
pub fn check_specifier(text: &[u8]) -> Result<(), Refusal> {
    sys::specifier(text)
}

/// Writes the normal form of a name to the front of `out` and answers that front. The rest of `out` stays as it was.
///
/// A normal form is never longer than its name. Refuses with [`Fault::NameBad`] or [`Fault::OutputShort`], and then leaves all of `out` as it was.
///
/// ```
/// let mut out = [0; 9];
/// assert_eq!(hulmisker::normalise(b"Foo._-Bar", &mut out).unwrap(), b"foo-bar");
/// ```
pub fn normalise<'out>(name: &[u8], out: &'out mut [u8]) -> Result<&'out [u8], Refusal> {
    let len = sys::normalise(name, out)?;
    Ok(&out[..len])
}

//! Requirement lines and extras.

use core::fmt::{self, Debug, Formatter};
use core::ops::Deref;

use crate::{sys, Marker, Refusal, Span, MAX_LIST};

/// Reads a requirement line: a name, extras, then specifiers or a URL, then a marker. Refuses with document 01's numbers 1 to 27.
///
/// For many lines [`Reader`] is faster.
pub fn read_line(line: &[u8]) -> Result<Requirement, Refusal> {
    let mut requirement = Requirement::EMPTY;
    sys::line(line, &mut requirement)?;
    Ok(requirement)
}

/// Reads extras alone, as `[a, b]`. What follows the closing bracket is not looked at, and text without a leading `[` has no extras.
/// Refuses with document 01's numbers 1, 2 and 6 to 12.
pub fn read_extras(line: &[u8]) -> Result<Spans, Refusal> {
    let mut extras = Spans::EMPTY;
    sys::extras(line, &mut extras)?;
    Ok(extras)
}

/// Reads line after line into one requirement, and so saves clearing and copying some 5 KB for each.
///
/// ```
/// let mut reader = hulmisker::Reader::new();
/// for line in [&b"a[b]"[..], b"c>1"] {
///     let requirement = reader.read(line).unwrap();
///     assert_eq!(requirement.name().len, 1);
/// }
/// ```
#[derive(Clone, Debug)]
pub struct Reader {
    requirement: Requirement,
}

impl Reader {
    /// A reader that has read nothing.
    pub const fn new() -> Reader {
        Reader {
            requirement: Requirement::EMPTY,
        }
    }

    /// As [`read_line`]. What was read before has no effect.
    pub fn read(&mut self, line: &[u8]) -> Result<&Requirement, Refusal> {
        sys::line(line, &mut self.requirement)?;
        Ok(&self.requirement)
    }
}

impl Default for Reader {
    fn default() -> Reader {
        Reader::new()
    }
}

/// What stands in a requirement line, as spans of it.
#[derive(Clone, Copy, PartialEq, Eq)]
pub struct Requirement {
    pub(crate) name: Span,
    pub(crate) url: Option<Span>,
    pub(crate) extras: Spans,
    pub(crate) specifiers: Spans,
    pub(crate) marker: Marker,
}

impl Requirement {
    /// What no line gives: room to read one into.
    const EMPTY: Requirement = Requirement {
        name: Span::NONE,
        url: None,
        extras: Spans::EMPTY,
        specifiers: Spans::EMPTY,
        marker: Marker::NONE,
    };

    /// The name as it is written. [`normalise`](crate::normalise) gives its normal form.
    pub fn name(&self) -> Span {
        self.name
    }

    /// The extras as they are written, in their order, repeats too.
    pub fn extras(&self) -> &[Span] {
        &self.extras
    }

    /// The specifiers, each with the white space around it.
    pub fn specifiers(&self) -> &[Span] {
        &self.specifiers
    }

    /// The URL, if the line has one. Then it has no specifiers.
    pub fn url(&self) -> Option<Span> {
        self.url
    }

    /// The marker. A line without one has the marker that always holds: no comparison, and the program 66.
    pub fn marker(&self) -> &Marker {
        &self.marker
    }
}

impl Debug for Requirement {
    fn fmt(&self, f: &mut Formatter<'_>) -> fmt::Result {
        f.debug_struct("Requirement")
            .field("name", &self.name)
            .field("extras", &self.extras())
            .field("specifiers", &self.specifiers())
            .field("url", &self.url)
            .field("marker", &self.marker)
            .finish()
    }
}

/// A list of at most [`MAX_LIST`] spans, in the order of the line.
#[derive(Clone, Copy)]
pub struct Spans {
    pub(crate) spans: [Span; MAX_LIST],
    pub(crate) count: usize,
}

impl Spans {
    const EMPTY: Spans = Spans {
        spans: [Span::NONE; MAX_LIST],
        count: 0,
    };
}

impl Deref for Spans {
    type Target = [Span];

    fn deref(&self) -> &[Span] {
        &self.spans[..self.count]
    }
}

impl PartialEq for Spans {
    fn eq(&self, other: &Spans) -> bool {
        **self == **other
    }
}

impl Eq for Spans {}

impl Debug for Spans {
    fn fmt(&self, f: &mut Formatter<'_>) -> fmt::Result {
        (**self).fmt(f)
    }
}

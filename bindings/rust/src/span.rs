//! Places in a line.

/// A part of a line: where it starts and how long it is, in bytes from the start of the line.
#[derive(Clone, Copy, Debug, Default, PartialEq, Eq, PartialOrd, Ord, Hash)]
#[repr(C)] // lists of spans are lent to the library as pairs of numbers
pub struct Span {
    /// The place of its first byte.
    pub start: usize,
    /// How many bytes it has.
    pub len: usize,
}

impl Span {
    pub(crate) const NONE: Span = Span { start: 0, len: 0 };

    /// The place just behind its last byte.
    pub fn end(self) -> usize {
        self.start.saturating_add(self.len)
    }

    /// Its bytes, of the line that it was read from. Of a span that does not lie in `line`, the bytes that do.
    pub fn of(self, line: &[u8]) -> &[u8] {
        let end = self.end().min(line.len());
        &line[self.start.min(end)..end]
    }
}

//! Markers: what is compared, what warned, and the program.

use core::fmt::{self, Debug, Formatter};

use crate::{sys, Key, Operator, Program, Refusal, Sort, Span, WarningKind};

/// Reads a marker alone, as `python_version > '3.8'`. Refuses with document 01's numbers 1, 2 and 18 to 27.
pub fn read_marker(line: &[u8]) -> Result<Marker, Refusal> {
    let mut marker = Marker::NONE;
    sys::marker(line, &mut marker)?;
    Ok(marker)
}

/// A comparison that a marker keeps.
#[derive(Clone, Copy, Debug, PartialEq, Eq, Hash)]
pub struct Comparison {
    /// What it compares.
    pub sort: Sort,
    /// The name in it.
    pub key: Key,
    /// The operator between the name, on the left, and the literal.
    pub operator: Operator,
    /// The literal, without its quotes.
    pub literal: Span,
}

/// A comparison that warned, and is ignored unless the marker's comparisons have it too.
#[derive(Clone, Copy, Debug, PartialEq, Eq, Hash)]
pub struct Warning {
    /// Why.
    pub kind: WarningKind,
    /// From the first byte of its left value to the last of its right one.
    pub span: Span,
}

/// A comparison as the library stores it: codes of sort, key and operator, and the literal's span.
#[derive(Clone, Copy)]
#[repr(C)] // `COMPARISON_SIZE` numbers
pub(crate) struct StoredComparison {
    pub sort: usize,
    pub key: usize,
    pub operator: usize,
    pub literal: Span,
}

/// A warning as the library stores it.
#[derive(Clone, Copy)]
#[repr(C)] // `WARNING_SIZE` numbers
pub(crate) struct StoredWarning {
    pub kind: usize,
    pub span: Span,
}

impl StoredComparison {
    const NONE: StoredComparison = StoredComparison {
        sort: 0,
        key: 0,
        operator: 0,
        literal: Span::NONE,
    };

    fn named(&self) -> Comparison {
        Comparison {
            sort: Sort::of_code(self.sort),
            key: Key::of_code(self.key),
            operator: Operator::of_code(self.operator),
            literal: self.literal,
        }
    }
}

impl StoredWarning {
    const NONE: StoredWarning = StoredWarning {
        kind: 0,
        span: Span::NONE,
    };

    fn named(&self) -> Warning {
        Warning {
            kind: WarningKind::of_number(self.kind),
            span: self.span,
        }
    }
}

/// What a marker says: its comparisons, its warnings, and the program that joins the comparisons by `and` and `or`.
///
/// The comparisons are numbered from 0 as they were read; these numbers are the program's. A comparison that is ignored is not in the program.
#[derive(Clone, Copy)]
pub struct Marker {
    pub(crate) comparisons: [StoredComparison; crate::MAX_COMPARISONS],
    pub(crate) warnings: [StoredWarning; crate::MAX_WARNINGS],
    pub(crate) warned: usize,
    pub(crate) program: Program,
}

impl Marker {
    /// The marker of a line that has none.
    pub(crate) const NONE: Marker = Marker {
        comparisons: [StoredComparison::NONE; crate::MAX_COMPARISONS],
        warnings: [StoredWarning::NONE; crate::MAX_WARNINGS],
        warned: 0,
        program: Program::YES,
    };

    /// Says how much of its arrays was read.
    pub(crate) fn counted(&mut self, kept: usize, warned: usize, words: usize) {
        self.program.count = kept;
        self.program.len = words;
        self.warned = warned;
    }

    /// The comparisons that are kept, in their order.
    pub fn comparisons(&self) -> impl ExactSizeIterator<Item = Comparison> + '_ {
        let kept = &self.comparisons[..self.program.count()];
        kept.iter().map(StoredComparison::named)
    }

    /// The comparison of a number, if it is below the count.
    pub fn comparison(&self, number: usize) -> Option<Comparison> {
        self.comparisons().nth(number)
    }

    /// The warnings, in their order.
    pub fn warnings(&self) -> impl ExactSizeIterator<Item = Warning> + '_ {
        self.warnings[..self.warned]
            .iter()
            .map(StoredWarning::named)
    }

    /// The program. Without a marker, and where all comparisons are ignored, it is the one word 66, yes.
    pub fn program(&self) -> &Program {
        &self.program
    }

    /// Whether the marker holds, where `says` tells of each comparison whether that holds. It is asked once for each, in their order.
    pub fn holds(&self, mut says: impl FnMut(Comparison) -> bool) -> bool {
        let assignment = self
            .comparisons()
            .enumerate()
            .fold(0, |bits, (k, comparison)| {
                bits | u64::from(says(comparison)) << k
            });
        self.program.run(assignment)
    }
}

impl PartialEq for Marker {
    fn eq(&self, other: &Marker) -> bool {
        self.program == other.program
            && self.comparisons().eq(other.comparisons())
            && self.warnings().eq(other.warnings())
    }
}

impl Eq for Marker {}

/// A list for debugging.
struct Listed<F>(F);

impl<I: Iterator<Item: Debug>, F: Fn() -> I> Debug for Listed<F> {
    fn fmt(&self, f: &mut Formatter<'_>) -> fmt::Result {
        f.debug_list().entries(self.0()).finish()
    }
}

impl Debug for Marker {
    fn fmt(&self, f: &mut Formatter<'_>) -> fmt::Result {
        f.debug_struct("Marker")
            .field("comparisons", &Listed(|| self.comparisons()))
            .field("warnings", &Listed(|| self.warnings()))
            .field("program", &self.program)
            .finish()
    }
}

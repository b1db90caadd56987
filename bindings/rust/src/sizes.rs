//! Limits, and how many numbers the library's buffers have: those of `bindings/c/hulmisker.h`, to which `tests/header.rs` holds them.

/// The most bytes that a line, extras, a marker, a version, a pattern or a specifier may have.
pub const MAX_LINE: usize = 4096;
/// The most extras, and the most specifiers, of a line.
pub const MAX_LIST: usize = 32;
/// The most open parentheses of a marker.
pub const MAX_DEPTH: usize = 16;
/// The most comparisons that a marker may keep.
pub const MAX_COMPARISONS: usize = 64;
/// The most warnings of a marker.
pub const MAX_WARNINGS: usize = 64;
/// The most words of a program.
pub const MAX_WORDS: usize = 127;
/// The most values that may stand at a time while a program runs.
pub const MAX_VALUES: usize = 35;

/// The numbers of a stored span.
pub const SPAN_SIZE: usize = 2;
/// The numbers of a stored comparison.
pub const COMPARISON_SIZE: usize = 5;
/// The numbers of a stored warning.
pub const WARNING_SIZE: usize = 3;

/// The numbers of a list of extras or specifiers.
pub const LIST_SIZE: usize = MAX_LIST * SPAN_SIZE;
/// The numbers of a list of comparisons.
pub const COMPARISONS_SIZE: usize = MAX_COMPARISONS * COMPARISON_SIZE;
/// The numbers of a list of warnings.
pub const WARNINGS_SIZE: usize = MAX_WARNINGS * WARNING_SIZE;

/// The figures of `hulmisker_line`; so below, each of the function in its name.
pub const LINE_FIGURES: usize = 12;
pub const EXTRAS_FIGURES: usize = 3;
pub const MARKER_FIGURES: usize = 5;
/// Of `hulmisker_pattern` and `hulmisker_specifier` too.
pub const VERSION_FIGURES: usize = 2;
pub const NORMALISE_FIGURES: usize = 3;
pub const CHECK_FIGURES: usize = 2;
pub const RUN_FIGURES: usize = 3;

//! Why an input is refused.

use core::fmt::{self, Display, Formatter, Write};

use crate::Span;

/// Document 01's refusals, and from 32 on document 02's, which no function of this crate gives yet. Each is its number.
#[derive(Clone, Copy, Debug, PartialEq, Eq, PartialOrd, Ord, Hash)]
#[repr(u8)]
pub enum Fault {
    /// Over 4,096 bytes.
    TooLong = 1,
    /// A byte of 128 or more.
    NotAscii = 2,
    /// No name before the end.
    NameMissing = 3,
    /// The first byte of the name is not a letter or digit.
    NameStart = 4,
    /// The name ends in `.`, `-` or `_`.
    NameEnd = 5,
    /// The end of input inside `[`.
    ExtrasOpen = 6,
    /// A comma before the first extra.
    ExtrasComma = 7,
    /// An extra starts with another byte than a letter or digit.
    ExtraStart = 8,
    /// No comma between extras.
    ExtraJoin = 9,
    /// The byte after an extra is not `,`, `]` or white space.
    ExtraAfter = 10,
    /// An extra ends in `.`, `-` or `_`.
    ExtraEnd = 11,
    /// A 33rd extra.
    ExtrasMany = 12,
    /// The URL is empty.
    UrlEmpty = 13,
    /// The text of a version, pattern or specifier is not valid.
    VersionBad = 14,
    /// The `(` of specifiers is not closed.
    SpecifiersOpen = 15,
    /// A 33rd specifier, itself valid.
    SpecifiersMany = 16,
    /// The line goes on after its last part.
    LineGoesOn = 17,
    /// A value of a marker is wanted at the end.
    ValueMissing = 18,
    /// An unquoted value is not a known name.
    ValueUnknown = 19,
    /// An operator is not known.
    OperatorUnknown = 20,
    /// No white space after `not`.
    NotUnspaced = 21,
    /// A quote, `)` or `in` was wanted, and the input ends.
    ExpectedFoundEnd = 22,
    /// `)` or `in` was wanted, and another byte stands there.
    ExpectedFoundOther = 23,
    /// The marker goes on after its last part.
    MarkerGoesOn = 24,
    /// A 17th open parenthesis.
    TooDeep = 25,
    /// A 65th kept comparison.
    ComparisonsMany = 26,
    /// A 65th warning.
    WarningsMany = 27,
    /// The name cannot be normalised.
    NameBad = 28,
    /// The output is shorter than the normal form.
    OutputShort = 29,
    /// The program breaks a stack rule.
    ProgramBad = 30,
    /// The count of comparisons is over 64.
    CountOver = 31,
    /// More than 16 release or 8 local segments, in judging only.
    SegmentsMany = 32,
    /// A piece or a finish after the finish, or after 36.
    TextEnded = 33,
    /// A comparison number more than once in a program to be explained.
    NumberRepeated = 34,
    /// A record out of order, or a field that no line gives.
    RecordBad = 35,
    /// A line after number 4,294,967,295, or a count that would exceed it.
    LinesMany = 36,
    /// A cabinet that is not made of its variable texts and its extras in normal form.
    CabinetBad = 37,
    /// A claimed answer that is not the one judged.
    ClaimWrong = 38,
    /// A claimed set with a number that is not below the count.
    ClaimOutside = 39,
    /// A claimed set that does not fix the answer.
    ClaimOpen = 40,
    /// A piece of over 512 bytes.
    PieceLong = 41,
}

impl Fault {
    /// All of them, in the order of their numbers.
    pub const ALL: [Fault; 41] = [
        Fault::TooLong,
        Fault::NotAscii,
        Fault::NameMissing,
        Fault::NameStart,
        Fault::NameEnd,
        Fault::ExtrasOpen,
        Fault::ExtrasComma,
        Fault::ExtraStart,
        Fault::ExtraJoin,
        Fault::ExtraAfter,
        Fault::ExtraEnd,
        Fault::ExtrasMany,
        Fault::UrlEmpty,
        Fault::VersionBad,
        Fault::SpecifiersOpen,
        Fault::SpecifiersMany,
        Fault::LineGoesOn,
        Fault::ValueMissing,
        Fault::ValueUnknown,
        Fault::OperatorUnknown,
        Fault::NotUnspaced,
        Fault::ExpectedFoundEnd,
        Fault::ExpectedFoundOther,
        Fault::MarkerGoesOn,
        Fault::TooDeep,
        Fault::ComparisonsMany,
        Fault::WarningsMany,
        Fault::NameBad,
        Fault::OutputShort,
        Fault::ProgramBad,
        Fault::CountOver,
        Fault::SegmentsMany,
        Fault::TextEnded,
        Fault::NumberRepeated,
        Fault::RecordBad,
        Fault::LinesMany,
        Fault::CabinetBad,
        Fault::ClaimWrong,
        Fault::ClaimOutside,
        Fault::ClaimOpen,
        Fault::PieceLong,
    ];

    /// Its number, 1 to 41.
    pub fn number(self) -> u8 {
        self as u8
    }

    /// The refusal of a number, if it is 1 to 41.
    pub fn from_number(number: u8) -> Option<Fault> {
        let index = usize::from(number).checked_sub(1)?;
        Fault::ALL.get(index).copied()
    }

    /// A short text. Document 01 leaves texts open, so they may change where numbers do not.
    pub fn message(self) -> &'static str {
        match self {
            Fault::TooLong => "the text is over 4096 bytes",
            Fault::NotAscii => "a byte that is not ASCII",
            Fault::NameMissing => "no name before the end",
            Fault::NameStart => "a name starts with a letter or digit",
            Fault::NameEnd => "a name ends with a letter or digit",
            Fault::ExtrasOpen => "the bracket of the extras is not closed",
            Fault::ExtrasComma => "a comma before the first extra",
            Fault::ExtraStart => "an extra starts with a letter or digit",
            Fault::ExtraJoin => "no comma between two extras",
            Fault::ExtraAfter => "after an extra stands a comma, a bracket or white space",
            Fault::ExtraEnd => "an extra ends with a letter or digit",
            Fault::ExtrasMany => "over 32 extras",
            Fault::UrlEmpty => "the URL is empty",
            Fault::VersionBad => "not a valid version, pattern or specifier",
            Fault::SpecifiersOpen => "the parenthesis of the specifiers is not closed",
            Fault::SpecifiersMany => "over 32 specifiers",
            Fault::LineGoesOn => "the line goes on after its last part",
            Fault::ValueMissing => "the marker ends where a value is wanted",
            Fault::ValueUnknown => "neither a known marker name nor quoted",
            Fault::OperatorUnknown => "not a known operator",
            Fault::NotUnspaced => "no white space after 'not'",
            Fault::ExpectedFoundEnd => {
                "the marker ends before what was opened here, or 'in', is complete"
            }
            Fault::ExpectedFoundOther => "another byte where ')' or 'in' is wanted",
            Fault::MarkerGoesOn => "the marker goes on after its last part",
            Fault::TooDeep => "over 16 open parentheses",
            Fault::ComparisonsMany => "over 64 kept comparisons",
            Fault::WarningsMany => "over 64 warnings",
            Fault::NameBad => "the name cannot be normalised",
            Fault::OutputShort => "the output is shorter than the normal form",
            Fault::ProgramBad => "the program breaks a stack rule",
            Fault::CountOver => "the count of comparisons is over 64",
            Fault::SegmentsMany => "a version with over 16 release or 8 local segments is compared",
            Fault::TextEnded => "the text has ended, and is not restarted",
            Fault::NumberRepeated => {
                "a comparison number more than once in a program to be explained"
            }
            Fault::RecordBad => "a record out of order, or a field that no line gives",
            Fault::LinesMany => "over 4294967295 lines",
            Fault::CabinetBad => {
                "a cabinet is made of its variable texts and its extras in normal form"
            }
            Fault::ClaimWrong => "the claimed answer is not the one judged",
            Fault::ClaimOutside => "the claimed set has a number that is not below the count",
            Fault::ClaimOpen => "the claimed set does not fix the answer",
            Fault::PieceLong => "the piece is over 512 bytes",
        }
    }
}

impl Display for Fault {
    fn fmt(&self, f: &mut Formatter<'_>) -> fmt::Result {
        f.pad(self.message())
    }
}

/// An input is refused: why, and where.
///
/// It does not hold the input. Its own text is the message with number and place, on one row; [`Refusal::show`] takes the input and also shows it.
#[derive(Clone, Copy, Debug, PartialEq, Eq, Hash)]
pub struct Refusal {
    /// Why.
    pub fault: Fault,
    /// Where, in bytes of the text, or in words of a program ([`Fault::ProgramBad`]). A fault that is the end of the text starts there, with length 1 or 0.
    pub span: Span,
}

impl Refusal {
    /// The message, below it the line, and below the span of the line a row of `^`.
    ///
    /// Each byte of the line has one column, and a byte that is not printable ASCII is shown as `?`: so a row stays one row, and `^` stands where it should, for
    /// every line. An empty span has one `^` as well.
    ///
    /// `line` is the text that was refused. For a program there is no such text.
    pub fn show(self, line: &[u8]) -> Shown<'_> {
        Shown {
            refusal: self,
            line,
        }
    }
}

impl Display for Refusal {
    fn fmt(&self, f: &mut Formatter<'_>) -> fmt::Result {
        let Span { start, len } = self.span;
        let number = self.fault.number();
        write!(f, "{} (refusal {number} at {start}, {len})", self.fault)
    }
}

impl core::error::Error for Refusal {}

/// A refusal together with its line, see [`Refusal::show`].
#[derive(Clone, Copy, Debug)]
pub struct Shown<'line> {
    refusal: Refusal,
    line: &'line [u8],
}

impl Display for Shown<'_> {
    fn fmt(&self, f: &mut Formatter<'_>) -> fmt::Result {
        writeln!(f, "{}", self.refusal.fault)?;
        for &byte in self.line {
            let printable = byte == b' ' || byte.is_ascii_graphic();
            f.write_char(if printable { char::from(byte) } else { '?' })?;
        }
        f.write_char('\n')?;
        for _ in 0..self.refusal.span.start {
            f.write_char(' ')?;
        }
        for _ in 0..self.refusal.span.len.max(1) {
            f.write_char('^')?;
        }
        Ok(())
    }
}

impl core::error::Error for Shown<'_> {}

//! Marker programs.

use core::fmt::{self, Debug, Formatter};

use crate::{sys, Refusal, MAX_WORDS};

/// Whether a program may be run with so many comparisons. Refuses with [`Fault::CountOver`] or [`Fault::ProgramBad`], whose span starts at a word's number.
///
/// Words are bytes: 0 to 63 push that comparison, 64 is and, 65 is or, 66 pushes yes.
///
/// [`Fault::CountOver`]: crate::Fault::CountOver
/// [`Fault::ProgramBad`]: crate::Fault::ProgramBad
pub fn check(program: &[u8], count: usize) -> Result<(), Refusal> {
    sys::check(program, count)
}

/// Checks a program as [`check`] does and runs it: bit k of `assignment` says whether comparison k holds. Bits from `count` up have no effect.
pub fn run(program: &[u8], count: usize, assignment: u64) -> Result<bool, Refusal> {
    sys::run(program, count, assignment)
}

/// A program that is known to pass the check for its count of comparisons.
#[derive(Clone, Copy)]
pub struct Program {
    /// The first `len` of these pass the check for `count`.
    pub(crate) words: [u8; MAX_WORDS],
    pub(crate) len: usize,
    pub(crate) count: usize,
}

impl Program {
    /// The one word 66, yes.
    pub(crate) const YES: Program = Program {
        words: [66; MAX_WORDS],
        len: 1,
        count: 0,
    };

    /// Keeps a program from elsewhere, if it passes the check for `count` comparisons.
    pub fn checked(words: &[u8], count: usize) -> Result<Program, Refusal> {
        check(words, count)?;
        let mut program = Program {
            len: words.len(),
            count,
            ..Program::YES
        };
        // What passes has at most `MAX_WORDS` words.
        program.words[..words.len()].copy_from_slice(words);
        Ok(program)
    }

    /// Its words.
    pub fn words(&self) -> &[u8] {
        &self.words[..self.len]
    }

    /// How many comparisons an assignment has bits for.
    pub fn count(&self) -> usize {
        self.count
    }

    /// Its answer: bit k of `assignment` says whether comparison k holds.
    pub fn run(&self, assignment: u64) -> bool {
        match run(self.words(), self.count, assignment) {
            Ok(answer) => answer,
            // The runner refuses just what the check refuses. This program passed it, or is an accepted marker's, which always passes
            // (`answer-passes` in crates/marker, `line-passes` in crates/line).
            Err(refusal) => unreachable!("a program that passed is refused: {refusal}"),
        }
    }
}

impl PartialEq for Program {
    fn eq(&self, other: &Program) -> bool {
        self.words() == other.words() && self.count == other.count
    }
}

impl Eq for Program {}

impl Debug for Program {
    fn fmt(&self, f: &mut Formatter<'_>) -> fmt::Result {
        f.debug_struct("Program")
            .field("words", &self.words())
            .field("count", &self.count)
            .finish()
    }
}

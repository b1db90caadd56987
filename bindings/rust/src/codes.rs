//! The names of a comparison's numbers.

use core::fmt::{self, Display, Formatter};

/// What a kept comparison compares.
#[derive(Clone, Copy, Debug, PartialEq, Eq, PartialOrd, Ord, Hash)]
pub enum Sort {
    /// The literal is a version or a pattern.
    Version,
    /// The literal is versions with white space between them, or none.
    VersionList,
    /// Any text.
    String,
    /// The name of an extra.
    Extra(ExtraKind),
}

/// Whether the name of an extra can be normalised.
#[derive(Clone, Copy, Debug, PartialEq, Eq, PartialOrd, Ord, Hash)]
pub enum ExtraKind {
    /// It can.
    Normal,
    /// It can't: the comparison warned with [`WarningKind::ExtraInvalidComparison`], and is kept.
    Arbitrary,
}

/// The name in a comparison. Its text is as a marker spells it.
#[derive(Clone, Copy, Debug, PartialEq, Eq, PartialOrd, Ord, Hash)]
pub enum Key {
    /// `python_version`
    PythonVersion,
    /// `python_full_version`
    PythonFullVersion,
    /// `implementation_version`
    ImplementationVersion,
    /// `os_name`
    OsName,
    /// `sys_platform`
    SysPlatform,
    /// `platform_release`
    PlatformRelease,
    /// `platform_system`
    PlatformSystem,
    /// `platform_version`
    PlatformVersion,
    /// `platform_machine`
    PlatformMachine,
    /// `platform_python_implementation`
    PlatformPythonImplementation,
    /// `implementation_name`
    ImplementationName,
    /// `extra`
    Extra,
}

/// The operator between key and literal. With the literal on the left it was mirrored.
#[derive(Clone, Copy, Debug, PartialEq, Eq, PartialOrd, Ord, Hash)]
pub enum Operator {
    /// `==`
    Equal,
    /// `!=`
    NotEqual,
    /// `<`
    Less,
    /// `<=`
    LessEqual,
    /// `>`
    Greater,
    /// `>=`
    GreaterEqual,
    /// `~=`
    Compatible,
    /// `in`: the key's text is part of the literal; for a list of versions, the version is one of them.
    In,
    /// `not in`
    NotIn,
    /// The literal is part of the key's text, as in `'x' in os_name`.
    Contains,
    /// As in `'x' not in os_name`.
    NotContains,
}

/// Why a comparison warned. The names are those of pep508_rs's `MarkerWarningKind`, the numbers document 01's.
#[derive(Clone, Copy, Debug, PartialEq, Eq, PartialOrd, Ord, Hash)]
#[repr(u8)]
pub enum WarningKind {
    /// A version key against no literal, an invalid version, or one that can't go with the operator.
    Pep440Error = 1,
    /// A string key against a name.
    MarkerMarkerComparison = 2,
    /// A string key, `~=` and a literal on its right.
    LexicographicComparison = 3,
    /// `extra` against a name, with an operator other than `==` and `!=`, or with a name that can't be normalised.
    ExtraInvalidComparison = 4,
    /// Two literals.
    StringStringComparison = 5,
}

/// The library gives no other code than those that have a name: its contracts say that what it stores are codes of a sort, a key, an operator and a kind
/// (`crates/marker_code/specs/Code`, `crates/marker/specs/Answer`). A number beyond them would mean that another archive is linked than the proved one. There
/// is no right answer then, and a wrong one would be worse than none.
#[cold]
fn no_code(what: &str, code: usize) -> ! {
    unreachable!("no {what} has the code {code}: is libgateway.a the archive of this repository?")
}

impl Sort {
    pub(crate) fn of_code(code: usize) -> Sort {
        match code {
            0 => Sort::Version,
            1 => Sort::VersionList,
            2 => Sort::String,
            3 => Sort::Extra(ExtraKind::Normal),
            4 => Sort::Extra(ExtraKind::Arbitrary),
            _ => no_code("sort", code),
        }
    }
}

impl Key {
    /// All of them, in the order of their codes.
    pub const ALL: [Key; 12] = [
        Key::PythonVersion,
        Key::PythonFullVersion,
        Key::ImplementationVersion,
        Key::OsName,
        Key::SysPlatform,
        Key::PlatformRelease,
        Key::PlatformSystem,
        Key::PlatformVersion,
        Key::PlatformMachine,
        Key::PlatformPythonImplementation,
        Key::ImplementationName,
        Key::Extra,
    ];

    pub(crate) fn of_code(code: usize) -> Key {
        match Key::ALL.get(code) {
            Some(key) => *key,
            None => no_code("key", code),
        }
    }

    /// The name, as a marker spells it.
    pub fn name(self) -> &'static str {
        match self {
            Key::PythonVersion => "python_version",
            Key::PythonFullVersion => "python_full_version",
            Key::ImplementationVersion => "implementation_version",
            Key::OsName => "os_name",
            Key::SysPlatform => "sys_platform",
            Key::PlatformRelease => "platform_release",
            Key::PlatformSystem => "platform_system",
            Key::PlatformVersion => "platform_version",
            Key::PlatformMachine => "platform_machine",
            Key::PlatformPythonImplementation => "platform_python_implementation",
            Key::ImplementationName => "implementation_name",
            Key::Extra => "extra",
        }
    }
}

impl Operator {
    /// All of them, in the order of their codes.
    pub const ALL: [Operator; 11] = [
        Operator::Equal,
        Operator::NotEqual,
        Operator::Less,
        Operator::LessEqual,
        Operator::Greater,
        Operator::GreaterEqual,
        Operator::Compatible,
        Operator::In,
        Operator::NotIn,
        Operator::Contains,
        Operator::NotContains,
    ];

    pub(crate) fn of_code(code: usize) -> Operator {
        match Operator::ALL.get(code) {
            Some(operator) => *operator,
            None => no_code("operator", code),
        }
    }

    /// Its sign or word.
    pub fn name(self) -> &'static str {
        match self {
            Operator::Equal => "==",
            Operator::NotEqual => "!=",
            Operator::Less => "<",
            Operator::LessEqual => "<=",
            Operator::Greater => ">",
            Operator::GreaterEqual => ">=",
            Operator::Compatible => "~=",
            Operator::In => "in",
            Operator::NotIn => "not in",
            Operator::Contains => "contains",
            Operator::NotContains => "not contains",
        }
    }
}

impl WarningKind {
    /// All of them, in the order of their numbers.
    pub const ALL: [WarningKind; 5] = [
        WarningKind::Pep440Error,
        WarningKind::MarkerMarkerComparison,
        WarningKind::LexicographicComparison,
        WarningKind::ExtraInvalidComparison,
        WarningKind::StringStringComparison,
    ];

    pub(crate) fn of_number(number: usize) -> WarningKind {
        match number {
            1 => WarningKind::Pep440Error,
            2 => WarningKind::MarkerMarkerComparison,
            3 => WarningKind::LexicographicComparison,
            4 => WarningKind::ExtraInvalidComparison,
            5 => WarningKind::StringStringComparison,
            _ => no_code("warning", number),
        }
    }

    /// Document 01's number, 1 to 5.
    pub fn number(self) -> u8 {
        self as u8
    }

    /// A short text.
    pub fn message(self) -> &'static str {
        match self {
            WarningKind::Pep440Error => {
                "a version name is compared with what is no fitting version"
            }
            WarningKind::MarkerMarkerComparison => "two names are compared",
            WarningKind::LexicographicComparison => "strings are compared with ~=",
            WarningKind::ExtraInvalidComparison => {
                "extra is compared by an operator or with a name that does not fit"
            }
            WarningKind::StringStringComparison => "two literals are compared",
        }
    }
}

impl Display for Key {
    fn fmt(&self, f: &mut Formatter<'_>) -> fmt::Result {
        f.pad(self.name())
    }
}

impl Display for Operator {
    fn fmt(&self, f: &mut Formatter<'_>) -> fmt::Result {
        f.pad(self.name())
    }
}

impl Display for WarningKind {
    fn fmt(&self, f: &mut Formatter<'_>) -> fmt::Result {
        f.pad(self.message())
    }
}

#[cfg(test)]
mod tests {
    use super::*;

    #[test]
    fn each_code_has_one_name() {
        for (code, key) in Key::ALL.into_iter().enumerate() {
            assert_eq!(Key::of_code(code), key);
        }
        for (code, operator) in Operator::ALL.into_iter().enumerate() {
            assert_eq!(Operator::of_code(code), operator);
        }
        for kind in WarningKind::ALL {
            assert_eq!(WarningKind::of_number(usize::from(kind.number())), kind);
        }
    }

    #[test]
    #[should_panic(expected = "no sort has the code 5")]
    fn no_sort_has_the_code_5() {
        Sort::of_code(5);
    }

    #[test]
    #[should_panic(expected = "no key has the code 12")]
    fn no_key_has_the_code_12() {
        Key::of_code(12);
    }

    #[test]
    #[should_panic(expected = "no operator has the code 11")]
    fn no_operator_has_the_code_11() {
        Operator::of_code(11);
    }

    #[test]
    #[should_panic(expected = "no warning has the code 0")]
    fn no_warning_has_the_kind_0() {
        WarningKind::of_number(0);
    }
}

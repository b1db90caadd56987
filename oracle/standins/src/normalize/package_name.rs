//! STAND-IN for normalize/package_name.rs: a wrapper over the given functions, which also
//! keeps the text as given, so that the oracle can print it.
use std::fmt::{Display, Formatter};
use std::str::FromStr;

use super::{validate_and_normalize_owned, validate_and_normalize_ref, InvalidNameError};

/// The normal form and the text as given.
#[derive(Hash, Debug, Clone, Eq, PartialEq, Ord, PartialOrd)]
pub struct PackageName {
    normal: String,
    given: String,
}

impl PackageName {
    /// By the owned form.
    pub fn new(name: String) -> Result<Self, InvalidNameError> {
        let given = name.clone();
        validate_and_normalize_owned(name).map(|normal| Self { normal, given })
    }

    /// The normal form.
    pub fn as_str(&self) -> &str {
        &self.normal
    }

    /// The text as given.
    pub fn given(&self) -> &str {
        &self.given
    }
}

impl FromStr for PackageName {
    type Err = InvalidNameError;

    fn from_str(name: &str) -> Result<Self, Self::Err> {
        let given = name.to_string();
        validate_and_normalize_ref(name).map(|normal| Self { normal, given })
    }
}

impl Display for PackageName {
    fn fmt(&self, f: &mut Formatter<'_>) -> std::fmt::Result {
        f.write_str(&self.normal)
    }
}

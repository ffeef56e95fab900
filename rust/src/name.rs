//! Names, and the hygiene that they have.

use std::fmt;

/// A name, as it is written.
#[derive(Clone, PartialEq, Eq, PartialOrd, Ord, Hash, Debug)]
#[cfg_attr(
    hir_serde,
    derive(serde::Serialize, serde::Deserialize),
    serde(transparent)
)]
pub struct Name(String);

impl Name {
    /// The name of this text.
    pub fn new(text: impl Into<String>) -> Name {
        Name(text.into())
    }

    /// Its text.
    pub fn as_str(&self) -> &str {
        &self.0
    }
}

impl From<&str> for Name {
    fn from(text: &str) -> Name {
        Name::new(text)
    }
}

/// Its text.
impl fmt::Display for Name {
    fn fmt(&self, f: &mut fmt::Formatter<'_>) -> fmt::Result {
        f.write_str(&self.0)
    }
}

/// Which macro expansion, if any, a name was written by.
#[derive(Clone, Copy, PartialEq, Eq, PartialOrd, Ord, Hash, Debug, Default)]
#[cfg_attr(
    hir_serde,
    derive(serde::Serialize, serde::Deserialize),
    serde(transparent)
)]
pub struct HygieneId(Option<u32>);

impl HygieneId {
    /// That of source text.
    pub const ROOT: HygieneId = HygieneId(None);

    /// That of the macro expansion of this number.
    pub const fn expansion(number: u32) -> HygieneId {
        HygieneId(Some(number))
    }

    /// The number of the expansion, where there is one.
    pub const fn as_expansion(self) -> Option<u32> {
        self.0
    }

    /// Whether it is that of source text.
    pub const fn is_root(self) -> bool {
        self.0.is_none()
    }
}

//! Names and paths: UTF-16 units.

use std::borrow::Cow;
use std::fmt;

/// A name or a path as a hive has it: UTF-16 units. A lone surrogate is a unit like others.
///
/// It is printed as a `String` is, with U+FFFD for each lone surrogate.
#[derive(Clone, Default, PartialEq, Eq, PartialOrd, Ord, Hash)]
pub struct Name(Vec<u16>);

impl Name {
    /// Its units.
    pub fn units(&self) -> &[u16] {
        &self.0
    }

    /// The text; none if a surrogate stands alone.
    pub fn to_text(&self) -> Option<String> {
        String::from_utf16(&self.0).ok()
    }

    /// Whether it has no unit, as the name of a default value and the path of the root.
    pub fn is_empty(&self) -> bool {
        self.0.is_empty()
    }

    /// Whether a hive takes both for one name: `a` to `z` count as `A` to `Z`.
    pub fn is_same(&self, other: impl Units) -> bool {
        let folded = |&unit: &u16| match unit {
            0x61..=0x7a => unit - 0x20,
            _ => unit,
        };
        let other = other.units();
        self.0.iter().map(folded).eq(other.iter().map(folded))
    }

    /// The path of the key of this name below the key of a path.
    pub fn below(&self, path: &Name) -> Name {
        let mut units = path.0.clone();
        if !units.is_empty() {
            units.push(u16::from(b'\\'));
        }
        units.extend(&self.0);
        Name(units)
    }
}

impl From<&str> for Name {
    fn from(text: &str) -> Name {
        Name(text.encode_utf16().collect())
    }
}

impl From<Vec<u16>> for Name {
    fn from(units: Vec<u16>) -> Name {
        Name(units)
    }
}

impl From<&[u16]> for Name {
    fn from(units: &[u16]) -> Name {
        Name(units.to_vec())
    }
}

impl PartialEq<str> for Name {
    fn eq(&self, other: &str) -> bool {
        self.0.iter().copied().eq(other.encode_utf16())
    }
}

impl PartialEq<&str> for Name {
    fn eq(&self, other: &&str) -> bool {
        self == *other
    }
}

impl fmt::Display for Name {
    fn fmt(&self, f: &mut fmt::Formatter<'_>) -> fmt::Result {
        f.pad(&String::from_utf16_lossy(&self.0))
    }
}

impl fmt::Debug for Name {
    fn fmt(&self, f: &mut fmt::Formatter<'_>) -> fmt::Result {
        f.write_str("\"")?;
        for read in char::decode_utf16(self.0.iter().copied()) {
            match read {
                Ok(letter) => write!(f, "{}", letter.escape_debug())?,
                Err(half) => write!(f, "\\u{{{:x}}}", half.unpaired_surrogate())?,
            }
        }
        f.write_str("\"")
    }
}

/// What a call takes for a path or a name: a text, a [`Name`], or units.
pub trait Units {
    /// The UTF-16 units.
    fn units(&self) -> Cow<'_, [u16]>;
}

impl Units for str {
    fn units(&self) -> Cow<'_, [u16]> {
        self.encode_utf16().collect()
    }
}

impl Units for String {
    fn units(&self) -> Cow<'_, [u16]> {
        self.as_str().encode_utf16().collect()
    }
}

impl Units for [u16] {
    fn units(&self) -> Cow<'_, [u16]> {
        Cow::Borrowed(self)
    }
}

impl Units for Vec<u16> {
    fn units(&self) -> Cow<'_, [u16]> {
        Cow::Borrowed(self)
    }
}

impl Units for Name {
    fn units(&self) -> Cow<'_, [u16]> {
        Cow::Borrowed(&self.0)
    }
}

impl<T: Units + ?Sized> Units for &T {
    fn units(&self) -> Cow<'_, [u16]> {
        (**self).units()
    }
}

//! Keys, and how names stand in lines.

use crate::Error;
use std::fmt;

const MOST_KEY_NAME: usize = 255;
const MOST_VALUE_NAME: usize = 16_383;

/// A key: its hive's number, and its path.
///
/// ```
/// use regtx_client::Key;
///
/// const VENDOR: Key = Key::new(0, r"Software\Vendor");
/// assert_eq!(VENDOR.to_string(), r"0:Software\Vendor");
/// ```
#[derive(Clone, Copy, Debug, PartialEq, Eq, Hash)]
pub struct Key<'a> {
    /// The hive's number, from 0 on.
    pub hive: u8,
    /// Names with one backslash between each two; empty for the hive's root.
    pub path: &'a str,
}

impl<'a> Key<'a> {
    /// The key of this path: `Key::new(0, r"Software\Vendor")`.
    pub const fn new(hive: u8, path: &'a str) -> Self {
        Key { hive, path }
    }

    /// The key as a word of a line.
    pub(crate) fn word(self) -> Result<String, Error> {
        if !self.path.is_empty() {
            for name in self.path.split('\\') {
                if name.is_empty() {
                    return Err(Error::WrongName(
                        self.path.to_owned(),
                        "a name of the path is empty",
                    ));
                }
                check(name, MOST_KEY_NAME)?;
            }
        }
        Ok(format!("{}:{}", self.hive, quoted(self.path)))
    }
}

impl fmt::Display for Key<'_> {
    fn fmt(&self, f: &mut fmt::Formatter<'_>) -> fmt::Result {
        write!(f, "{}:{}", self.hive, self.path)
    }
}

/// A value's name as a word of a line; the default value's is empty.
pub(crate) fn value_name_word(name: &str) -> Result<String, Error> {
    check(name, MOST_VALUE_NAME)?;
    Ok(match name {
        "" => "@".to_owned(),
        "@" => "%0040".to_owned(),
        _ => quoted(name),
    })
}

// the rules of E4 BadName; so no name brings a blank or an end of line into a line
fn check(name: &str, most: usize) -> Result<(), Error> {
    if !name.bytes().all(|byte| (0x20..=0x7e).contains(&byte)) {
        return Err(Error::WrongName(
            name.to_owned(),
            "it has a character that isn't printable ASCII",
        ));
    }
    if name.len() > most {
        return Err(Error::WrongName(name.to_owned(), "it is too long"));
    }
    Ok(())
}

// the two letters of checked names that mean something else in a line
fn quoted(name: &str) -> String {
    name.replace('%', "%0025").replace(' ', "%0020")
}

/// The name that stands so in a reply, if one does.
pub(crate) fn name_of_word(word: &str) -> Option<String> {
    if word == "@" {
        return Some(String::new());
    }
    let mut units = Vec::new();
    let mut rest = word;
    while let Some(first) = rest.chars().next() {
        if first == '%' {
            units.push(u16::from_str_radix(rest.get(1..5)?, 16).ok()?);
            rest = &rest[5..];
        } else {
            units.push(u16::try_from(u32::from(first)).ok()?);
            rest = &rest[first.len_utf8()..];
        }
    }
    Some(String::from_utf16_lossy(&units))
}

//! UUIDs: of stores, and of units of work.

use std::fs::File;
use std::io::{self, Read};
use std::str::FromStr;
use std::{error, fmt};

/// A UUID: of a store, or of a unit of work whose outcome is kept.
///
/// ```
/// use regtx_client::Uuid;
///
/// let unit: Uuid = "6BA7B8109DAD11D180B400C04FD430C8".parse()?;
/// assert_eq!(unit.to_string(), "6ba7b810-9dad-11d1-80b4-00c04fd430c8");
/// assert!("6ba7b810".parse::<Uuid>().is_err());
/// # Ok::<(), regtx_client::ParseUuidError>(())
/// ```
#[derive(Clone, Copy, Debug, PartialEq, Eq, PartialOrd, Ord, Hash)]
pub struct Uuid(pub [u8; 16]);

/// The text isn't a UUID.
#[derive(Clone, Copy, Debug, PartialEq, Eq)]
pub struct ParseUuidError;

impl Uuid {
    /// A random one, of version 4, from `/dev/urandom`.
    pub fn random() -> io::Result<Uuid> {
        let mut bytes = [0; 16];
        File::open("/dev/urandom")?.read_exact(&mut bytes)?;
        bytes[6] = bytes[6] & 0x0f | 0x40;
        bytes[8] = bytes[8] & 0x3f | 0x80;
        Ok(Uuid(bytes))
    }
}

impl fmt::Display for Uuid {
    fn fmt(&self, f: &mut fmt::Formatter<'_>) -> fmt::Result {
        for (at, byte) in self.0.iter().enumerate() {
            let hyphen = if matches!(at, 4 | 6 | 8 | 10) {
                "-"
            } else {
                ""
            };
            write!(f, "{hyphen}{byte:02x}")?;
        }
        Ok(())
    }
}

impl FromStr for Uuid {
    type Err = ParseUuidError;

    /// Reads 32 hex digits, or groups of 8, 4, 4, 4 and 12 with hyphens between.
    fn from_str(text: &str) -> Result<Uuid, ParseUuidError> {
        let digits = match text.len() {
            32 => text.to_owned(),
            36 if [8, 13, 18, 23]
                .iter()
                .all(|&at| text.as_bytes()[at] == b'-') =>
            {
                text.replace('-', "")
            }
            _ => return Err(ParseUuidError),
        };
        // a sign is taken by the number's own reader
        if digits.len() != 32 || !digits.bytes().all(|byte| byte.is_ascii_hexdigit()) {
            return Err(ParseUuidError);
        }
        let number = u128::from_str_radix(&digits, 16).map_err(|_| ParseUuidError)?;
        Ok(Uuid(number.to_be_bytes()))
    }
}

impl fmt::Display for ParseUuidError {
    fn fmt(&self, f: &mut fmt::Formatter<'_>) -> fmt::Result {
        write!(f, "not a UUID")
    }
}

impl error::Error for ParseUuidError {}

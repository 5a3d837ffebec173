//! Why a call failed.

use crate::ffi;
use std::path::{Path, PathBuf};
use std::{error, fmt, io};

/// Why the library refused a call, which changed nothing.
#[derive(Clone, Copy, PartialEq, Eq, Hash)]
pub struct Error(u32);

impl Error {
    /// Memory was asked for and not given.
    pub const NO_MEMORY: Error = Error(1);
    /// There is no such key or value.
    pub const NOT_FOUND: Error = Error(2);
    /// The key to be deleted has subkeys.
    pub const HAS_SUBKEYS: Error = Error(3);
    /// A path or a name breaks the rules of names.
    pub const BAD_NAME: Error = Error(4);
    /// A path has more than 512 names, or one call would create more than 32 keys.
    pub const TOO_DEEP: Error = Error(5);
    /// Data over 1,048,576 bytes, or a hive over a limit.
    pub const TOO_LARGE: Error = Error(6);
    /// A version, a type, a format or a flag that isn't read.
    pub const UNSUPPORTED: Error = Error(17);
    /// The root, or a key that is marked as not deletable, is to be deleted.
    pub const FIXED: Error = Error(18);
    pub(crate) const NO_ROOM: Error = Error(101);

    /// The number of `regtx.h`.
    pub fn code(self) -> u32 {
        self.0
    }

    /// Its name there, such as `REGTX_BAD_NAME`; empty if it has none.
    pub fn name(self) -> String {
        ffi::code_name(self.0)
    }

    /// Whether the bytes are no whole hive.
    pub fn is_damage(self) -> bool {
        ffi::is_damage(self.0)
    }

    /// The answer of a call.
    pub(crate) fn of(code: u32) -> Result<(), Error> {
        if code == 0 {
            Ok(())
        } else {
            Err(Error(code))
        }
    }
}

impl fmt::Display for Error {
    /// What the library says, such as `E4 BadName`.
    fn fmt(&self, f: &mut fmt::Formatter<'_>) -> fmt::Result {
        match ffi::text(self.0) {
            text if text.is_empty() => write!(f, "refusal {}", self.0),
            text => f.write_str(&text),
        }
    }
}

impl fmt::Debug for Error {
    fn fmt(&self, f: &mut fmt::Formatter<'_>) -> fmt::Result {
        write!(f, "Error({}, {self})", self.0)
    }
}

impl error::Error for Error {}

/// Why a file wasn't read or written.
#[derive(Debug)]
#[non_exhaustive]
pub enum FileError {
    /// The system refused something of this file.
    Io(PathBuf, io::Error),
    /// The library refused what this file holds, or is to hold.
    Hive(PathBuf, Error),
}

impl FileError {
    /// The file.
    pub fn path(&self) -> &Path {
        match self {
            FileError::Io(path, _) | FileError::Hive(path, _) => path,
        }
    }

    /// What makes an error of one that the system told of a file.
    pub(crate) fn io(path: &Path) -> impl FnOnce(io::Error) -> FileError + '_ {
        |why| FileError::Io(path.to_owned(), why)
    }

    /// What makes an error of one that the library told.
    pub(crate) fn hive(path: &Path) -> impl FnOnce(Error) -> FileError + '_ {
        |why| FileError::Hive(path.to_owned(), why)
    }
}

impl fmt::Display for FileError {
    fn fmt(&self, f: &mut fmt::Formatter<'_>) -> fmt::Result {
        match self {
            FileError::Io(path, why) => write!(f, "{}: {why}", path.display()),
            FileError::Hive(path, why) => write!(f, "{}: {why}", path.display()),
        }
    }
}

impl error::Error for FileError {
    fn source(&self) -> Option<&(dyn error::Error + 'static)> {
        match self {
            FileError::Io(_, why) => Some(why),
            FileError::Hive(_, why) => Some(why),
        }
    }
}

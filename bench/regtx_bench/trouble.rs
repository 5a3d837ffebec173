//! Why the program ends without what it was asked for.
use disk_model::Failed;
use file_disk::LockError;
use ktm_calls::Denied;
use refusals::Refusal;
use std::alloc::{AllocError, AllocFailed};
use std::fmt;
use std::io::{self, ErrorKind};

/// Why the program ends without what it was asked for.
#[derive(Clone, Copy)]
pub enum Trouble {
    /// A call of the store was refused.
    Refused(Refusal),
    /// A value of a thread's key is of no round.
    Torn,
    /// Another program has the folder.
    InUse,
    /// The system failed.
    System(ErrorKind),
}

impl fmt::Display for Trouble {
    fn fmt<W: fmt::Write>(&self, f: &mut fmt::Formatter<W>) -> fmt::Result {
        match self {
            Trouble::Refused(refusal) => write!(f, "{refusal}"),
            Trouble::Torn => write!(f, "a value of no round"),
            Trouble::InUse => write!(f, "another program has the store open"),
            Trouble::System(kind) => write!(f, "{kind}"),
        }
    }
}

impl From<Refusal> for Trouble {
    fn from(refusal: Refusal) -> Trouble {
        Trouble::Refused(refusal)
    }
}

impl From<Denied> for Trouble {
    fn from(denied: Denied) -> Trouble {
        // there is a refusal in each denial
        Trouble::Refused(denied.refusal().unwrap_or(Refusal::NoMemory))
    }
}

impl From<Failed> for Trouble {
    fn from(_failed: Failed) -> Trouble {
        Trouble::Refused(Refusal::DiskFault)
    }
}

impl From<AllocError> for Trouble {
    fn from(_error: AllocError) -> Trouble {
        Trouble::Refused(Refusal::NoMemory)
    }
}

impl<T: Drop> From<AllocFailed<T>> for Trouble {
    fn from(_error: AllocFailed<T>) -> Trouble {
        Trouble::Refused(Refusal::NoMemory)
    }
}

impl From<io::Error> for Trouble {
    fn from(error: io::Error) -> Trouble {
        match error.kind() {
            ErrorKind::OutOfMemory => Trouble::Refused(Refusal::NoMemory),
            kind => Trouble::System(kind),
        }
    }
}

impl From<LockError> for Trouble {
    fn from(error: LockError) -> Trouble {
        match error {
            LockError::NoMemory => Trouble::Refused(Refusal::NoMemory),
            LockError::InUse => Trouble::InUse,
            LockError::Denied(error) => Trouble::from(error),
        }
    }
}

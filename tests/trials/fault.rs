//! What ends a run of one of the repository's own programs early: of those that tests run and those that `bench/` runs.
//!
//! Errors that become a [`Fault`] by `?` become the stated one: memory that was not given is `NoMemory`, whoever asked
//! for it. The programs turn it into the status that they state.
#![tactic(auto)]

use disk_model::Failed;
use refusals::Refusal;
use std::alloc::{AllocError, AllocFailed};
use std::io;

/// Why a run ends early, or what came instead of the expected.
#[derive(Clone, Copy)]
pub enum Fault {
    /// Memory was refused to the program itself.
    NoMemory,
    /// Memory was refused to a call that was made again.
    Twice,
    /// A word, a line or a file is none of those that are understood, or can't be read or written.
    NotUnderstood,
    /// This came.
    Otherwise(&'static str),
}

impl Fault {
    /// What is printed of it.
    pub fn text(self) -> &'static str {
        match self {
            Fault::NoMemory => "no memory",
            Fault::Twice => "no memory twice",
            Fault::NotUnderstood => "not understood",
            Fault::Otherwise(came) => came,
        }
    }
}

impl From<AllocError> for Fault {
    fn from(_error: AllocError) -> Fault {
        Fault::NoMemory
    }
}

impl<T: Drop> From<AllocFailed<T>> for Fault {
    fn from(_error: AllocFailed<T>) -> Fault {
        Fault::NoMemory
    }
}

impl From<Refusal> for Fault {
    fn from(refusal: Refusal) -> Fault {
        match refusal {
            Refusal::NoMemory => Fault::NoMemory,
            _ => Fault::Otherwise("a refusal"),
        }
    }
}

impl From<Failed> for Fault {
    fn from(_failed: Failed) -> Fault {
        Fault::Otherwise("DiskFault")
    }
}

impl From<io::Error> for Fault {
    fn from(error: io::Error) -> Fault {
        match error.kind() {
            io::ErrorKind::OutOfMemory => Fault::NoMemory,
            _ => Fault::NotUnderstood,
        }
    }
}

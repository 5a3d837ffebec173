//! What threads bring back.
use crate::trouble::Trouble;
use std::alloc::Global;

/// How long the calls of all threads took, and what was refused first.
#[derive(Drop)]
pub struct Tally {
    // the nanoseconds of each call
    nanos: Vec<u64>,
    trouble: Option<Trouble>,
}

impl Tally {
    /// Of no thread.
    pub fn new(alloc: Global) -> Tally {
        Tally {
            nanos: Vec::new(alloc),
            trouble: None,
        }
    }

    /// Takes in what a thread brings back.
    pub fn take(&mut self, nanos: &[u64], ended: Result<(), Trouble>) {
        if let Err(trouble) = ended {
            self.note(trouble);
        }
        if let Err(error) = self.nanos.extend_from_slice(nanos) {
            self.note(Trouble::from(error));
        }
    }

    /// The nanoseconds of each call, if none was refused.
    pub fn into_nanos(self) -> Result<Vec<u64>, Trouble> {
        let Tally { nanos, trouble } = self;
        match trouble {
            None => Ok(nanos),
            Some(trouble) => Err(trouble),
        }
    }

    // notes what was refused
    fn note(&mut self, trouble: Trouble) {
        if self.trouble.is_none() {
            self.trouble = Some(trouble);
        }
    }
}

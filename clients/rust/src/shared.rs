//! A run that threads share.

use crate::run::Run;
use std::sync::{Mutex, MutexGuard, PoisonError};

/// A run, or a connection, of which one thread at a time sends lines and reads their replies.
#[derive(Debug)]
pub struct SharedRun(Mutex<Run>);

impl SharedRun {
    pub(crate) fn new(run: Run) -> SharedRun {
        SharedRun(Mutex::new(run))
    }

    /// The run, once no other thread has it.
    pub(crate) fn lock(&self) -> MutexGuard<'_, Run> {
        self.0.lock().unwrap_or_else(|poisoned| {
            // a thread panicked amid a call: replies may be left that nobody has read
            let mut run = poisoned.into_inner();
            run.lost();
            run
        })
    }

    pub(crate) fn into_inner(self) -> Run {
        self.0.into_inner().unwrap_or_else(PoisonError::into_inner)
    }
}

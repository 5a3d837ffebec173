//! Work that is tried again if another writer is in its way, and work that is done once.

use crate::requests::scope::Scope;
use crate::store::kept_number;
use crate::{Error, Refusal, Transaction, Uuid, Writes};
use std::thread;
use std::time::Duration;

/// How long it is waited for another writer: at first, and at most.
const FIRST_PAUSE: Duration = Duration::from_millis(5);
const LONGEST_PAUSE: Duration = Duration::from_secs(1);

/// A unit of work that is to be done in a session, so many times at most.
pub(crate) struct Worker<'a, S> {
    session: &'a S,
    unit: &'a Uuid,
    tries: u32,
}

impl<'a, S: Scope> Worker<'a, S> {
    pub(crate) fn of(session: &'a S, unit: &'a Uuid, tries: u32) -> Self {
        Worker {
            session,
            unit,
            tries,
        }
    }

    pub(crate) fn transact(
        &self,
        mut work: impl FnMut(&Transaction<'_>) -> Result<(), Error>,
    ) -> Result<Option<u64>, Error> {
        self.again(|tx| {
            tx.start()?;
            work(&tx)?;
            tx.commit()
        })
    }

    pub(crate) fn transact_writes(&self, writes: &Writes) -> Result<Option<u64>, Error> {
        self.again(|tx| tx.begin_and_commit(writes))
    }

    pub(crate) fn once(
        &self,
        mut work: impl FnMut(&Transaction<'_>) -> Result<(), Error>,
    ) -> Result<Option<u64>, Error> {
        self.again(|tx| match kept_number(tx.start_and_ask_kept()?)? {
            None => {
                work(&tx)?;
                tx.commit()
            }
            kept => tx.rollback().map(|()| kept),
        })
    }

    pub(crate) fn once_writes(&self, writes: &Writes) -> Result<Option<u64>, Error> {
        self.again(|tx| match kept_number(tx.start_and_ask_kept()?)? {
            None => tx.commit_writes(writes),
            kept => tx.rollback().map(|()| kept),
        })
    }

    /// What work makes of a transaction that isn't begun yet. It is carried out again if another
    /// writer is in its way.
    fn again(
        &self,
        mut work: impl FnMut(Transaction<'a>) -> Result<Option<u64>, Error>,
    ) -> Result<Option<u64>, Error> {
        let (run, session) = self.session.place();
        let mut pause = FIRST_PAUSE;
        for _ in 1..self.tries {
            match work(Transaction::of(run, session, self.unit)?) {
                Err(Error::Refused(
                    Refusal::Conflict | Refusal::NotActive | Refusal::NoSuchHandle,
                    _,
                )) => {
                    thread::sleep(pause.mul_f64(0.5 + chance() / 2.0));
                    pause = (2 * pause).min(LONGEST_PAUSE);
                }
                done => return done,
            }
        }
        work(Transaction::of(run, session, self.unit)?)
    }
}

/// A number from 0 to 1 by chance, so that two writers don't meet again and again.
fn chance() -> f64 {
    Uuid::random().map_or(1.0, |uuid| f64::from(uuid.0[0]) / 255.0)
}

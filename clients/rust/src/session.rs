//! Sessions of a store.

use crate::requests::scope::Scope;
use crate::run::FIRST_SESSION;
use crate::shared::SharedRun;
use crate::work::Worker;
use crate::{reply, Error, Transaction, Uuid, Writes};

/// A session of a store beside its first one, with transactions of its own. It ends when it is
/// dropped; an error of that is told by the store's next call.
///
/// Of a server's store it is a connection of its own. If that was lost, a drop tells nothing.
#[derive(Debug)]
pub struct Session<'a> {
    place: Place<'a>,
}

#[derive(Debug)]
enum Place<'a> {
    /// A session of this number in the store's run.
    In(&'a SharedRun, u32),
    Own(Box<SharedRun>),
}

impl<'a> Session<'a> {
    pub(crate) fn open(run: &'a SharedRun) -> Result<Self, Error> {
        let mut opened = run.lock();
        opened.tell()?;
        if let Some(own) = opened.beside()? {
            let place = Place::Own(Box::new(SharedRun::new(own)));
            return Ok(Session { place });
        }
        let number = opened.take_session();
        if let Err(why) = opened.enter(number) {
            opened.free_session(number);
            return Err(why);
        }
        let place = Place::In(run, number);
        Ok(Session { place })
    }

    /// Begins a transaction of this session; see [`Store::transaction`](crate::Store::transaction).
    pub fn transaction(&self, unit: &Uuid) -> Result<Transaction<'_>, Error> {
        let (run, number) = self.place();
        Transaction::begin(run, number, unit)
    }

    /// Carries out work in a transaction; see [`Store::transact`](crate::Store::transact).
    pub fn transact(
        &self,
        unit: &Uuid,
        tries: u32,
        work: impl FnMut(&Transaction<'_>) -> Result<(), Error>,
    ) -> Result<Option<u64>, Error> {
        Worker::of(self, unit, tries).transact(work)
    }

    /// The same of writes, which are sent together.
    pub fn transact_writes(
        &self,
        unit: &Uuid,
        tries: u32,
        writes: &Writes,
    ) -> Result<Option<u64>, Error> {
        Worker::of(self, unit, tries).transact_writes(writes)
    }

    /// Does a unit of work once; see [`Store::once`](crate::Store::once).
    pub fn once(
        &self,
        unit: &Uuid,
        tries: u32,
        work: impl FnMut(&Transaction<'_>) -> Result<(), Error>,
    ) -> Result<Option<u64>, Error> {
        Worker::of(self, unit, tries).once(work)
    }

    /// The same of writes, which are sent together.
    pub fn once_writes(
        &self,
        unit: &Uuid,
        tries: u32,
        writes: &Writes,
    ) -> Result<Option<u64>, Error> {
        Worker::of(self, unit, tries).once_writes(writes)
    }

    /// Ends the session.
    pub fn end(self) -> Result<(), Error> {
        match &self.place {
            Place::Own(own) => own.lock().end(),
            Place::In(run, _) => {
                let run = *run;
                drop(self);
                let told = run.lock().tell();
                told
            }
        }
    }
}

impl Drop for Session<'_> {
    fn drop(&mut self) {
        // an own run ends with its own drop
        if let Place::In(run, number) = &self.place {
            let mut run = run.lock();
            let ended = run.exchange_ok(&format!("end {number}"));
            run.free_session(*number);
            run.keep(ended);
        }
    }
}

impl Scope for Session<'_> {
    type Accepted = u64;

    fn place(&self) -> (&SharedRun, u32) {
        match &self.place {
            Place::In(run, number) => (run, *number),
            Place::Own(own) => (own, FIRST_SESSION),
        }
    }

    fn begin(&self) -> Result<Option<Transaction<'_>>, Error> {
        self.transaction(&Uuid::random()?).map(Some)
    }

    fn line(&self, request: &str) -> String {
        request.to_owned()
    }

    fn accepted(reply: &str) -> Option<u64> {
        reply::number(reply, "accepted")
    }
}

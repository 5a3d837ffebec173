//! The calls of a registry by functions that promise nothing, with answers that are compared.
use crate::engine_calls::{Answer, Found, MOMENT};
use crate::fault::Fault;
use crate::oom::asks::{Change, Look, VALUE_BYTES, question_of, tx_of};
use crate::oom::operations::{TYPE, data_of, path, value_name};
use crate::oom::watched_disk::DiskWatch;
use histories::Start;
use ktm_calls::{Denied, Disposition, Key, Registry, Session, Told};
use refusals::Refusal;
use std::alloc::Global;
use std::sync::Wait;
use store_engine::StoreEngine;
use store_model::Tx;
use uuid::Uuid;

/// A call of a session. Transactions are named by their order, from 0 on; keys are in hive 0.
#[derive(Clone, Copy)]
pub(crate) enum Call {
    Write(Change),
    Look(&'static str, Look),
    WriteIn(usize, Change),
    LookIn(usize, &'static str, Look),
    OpenIn(usize, &'static str),
    Rollback(usize),
    Close(usize),
    Outcome(usize),
    /// The number of the unit of work's commit, by what the session sees.
    OutcomeOf,
    /// The same, by the store itself.
    StoredOutcome,
}

/// A registry, as it is called.
pub(crate) struct Calls<'a, E: StoreEngine, O: Start, R: Wait> {
    /// The runtime.
    pub rt: &'a R,
    /// Where keys and names are made.
    pub alloc: Global,
    /// The registry.
    pub registry: &'a Registry<E, O>,
    /// What its disk tells.
    pub watch: &'a DiskWatch,
}

impl<'a, E: StoreEngine, O: Start, R: Wait> Drop for Calls<'a, E, O, R> {
    fn drop(self) {
        let Calls {
            rt: _,
            alloc: _,
            registry: _,
            watch: _,
        } = self;
    }
}

/// The key of a path.
pub(crate) fn key_of(alloc: Global, at: &str) -> Result<Key, Fault> {
    Ok(Key::new(0, path(alloc, at)?))
}

/// Why a call was denied.
pub(crate) fn refusal_of(denied: &Denied) -> Refusal {
    denied.refusal().unwrap_or(Refusal::Faulted)
}

/// What is told, or why the call was denied.
pub(crate) fn answer_of(answer: Result<Told, Denied>) -> Answer {
    match answer {
        Ok(told) => Answer::of(told.reply()),
        Err(denied) => Answer::Refused(refusal_of(&denied)),
    }
}

// the same of a creation, whose disposition has to be that of its event
fn disposed(answer: Result<(Disposition, Told), Denied>) -> Result<Answer, Fault> {
    let (disposition, told) = match answer {
        Ok(created) => created,
        Err(denied) => return Ok(Answer::Refused(refusal_of(&denied))),
    };
    let answer = Answer::of(told.reply());
    if (disposition == Disposition::Opened) == (answer == Answer::Opened) {
        Ok(answer)
    } else {
        Err(Fault::Otherwise("another disposition"))
    }
}

// what was read, or why it was denied
fn found(answer: Result<Found, Refusal>) -> Answer {
    match answer {
        Ok(found) => Answer::Found(found),
        Err(refusal) => Answer::Refused(refusal),
    }
}

// the number of a commit, or why it isn't told
fn committed(answer: Result<u64, Refusal>) -> Answer {
    match answer {
        Ok(number) => Answer::CommittedAs(number),
        Err(refusal) => Answer::Refused(refusal),
    }
}

impl<'a, E: StoreEngine, O: Start, R: Wait> Calls<'a, E, O, R> {
    /// One call.
    pub(crate) fn call(
        &self,
        session: &mut Session<O>,
        transactions: &[Tx],
        what: Call,
    ) -> Result<Answer, Fault> {
        match what {
            Call::Write(change) => self.write(session, change),
            Call::Look(at, look) => self.look(session, at, look),
            Call::WriteIn(index, change) => {
                self.write_in(session, tx_of(transactions, index)?, change)
            }
            Call::LookIn(index, at, look) => {
                self.look_in(session, tx_of(transactions, index)?, at, look)
            }
            Call::OpenIn(index, at) => self.open_in(session, tx_of(transactions, index)?, at),
            Call::Rollback(index) => {
                let tx = tx_of(transactions, index)?;
                Ok(answer_of(self.registry.rollback_transaction(self.rt, session, tx)))
            }
            Call::Close(index) => {
                let tx = tx_of(transactions, index)?;
                Ok(answer_of(self.registry.close_transaction(self.rt, session, tx)))
            }
            Call::Outcome(index) => Ok(self.outcome(session, tx_of(transactions, index)?)),
            Call::OutcomeOf => Ok(committed(session.outcome_of(&Uuid::nil()))),
            Call::StoredOutcome => Ok(self.stored_outcome(session)),
        }
    }

    /// What became of a transaction.
    pub(crate) fn outcome(&self, session: &mut Session<O>, tx: Tx) -> Answer {
        match self.registry.outcome(self.rt, session, tx) {
            Ok((outcome, _told)) => Answer::OutcomeIs(outcome),
            Err(denied) => Answer::Refused(refusal_of(&denied)),
        }
    }

    // the number of the unit of work's commit
    fn stored_outcome(&self, session: &mut Session<O>) -> Answer {
        match self.registry.outcome_of(self.rt, session, Uuid::nil()) {
            Ok((number, _told)) => Answer::CommittedAs(number),
            Err(denied) => Answer::Refused(refusal_of(&denied)),
        }
    }

    /// Begins a transaction: whether there was memory for it.
    pub(crate) fn begin(&self, session: &mut Session<O>) -> Result<Option<Tx>, Fault> {
        match self
            .registry
            .create_transaction(self.rt, session, Uuid::nil())
        {
            Ok((tx, _told)) => Ok(Some(tx)),
            Err(denied) if refusal_of(&denied) == Refusal::NoMemory => Ok(None),
            Err(_) => Err(Fault::Otherwise("no transaction")),
        }
    }

    fn write(&self, session: &mut Session<O>, change: Change) -> Result<Answer, Fault> {
        match change {
            Change::Create(at) => {
                let key = key_of(self.alloc, at)?;
                disposed(self.registry.reg_create_key(self.rt, session, &key, MOMENT))
            }
            Change::Delete(at) => {
                let key = key_of(self.alloc, at)?;
                Ok(answer_of(self.registry.reg_delete_key(self.rt, session, &key, MOMENT)))
            }
            Change::Set(at, name) => self.set(session, &key_of(self.alloc, at)?, name),
            Change::Unset(at, name) => self.unset(session, &key_of(self.alloc, at)?, name),
        }
    }

    /// A write in a transaction.
    pub(crate) fn write_in(
        &self,
        session: &mut Session<O>,
        tx: Tx,
        change: Change,
    ) -> Result<Answer, Fault> {
        match change {
            Change::Create(at) => {
                let key = key_of(self.alloc, at)?;
                disposed(
                    self.registry
                        .reg_create_key_transacted(self.rt, session, tx, &key, MOMENT),
                )
            }
            Change::Delete(at) => {
                let key = key_of(self.alloc, at)?;
                Ok(answer_of(
                    self.registry
                        .reg_delete_key_transacted(self.rt, session, tx, &key, MOMENT),
                ))
            }
            Change::Set(at, name) => {
                self.set(session, &key_of(self.alloc, at)?.in_transaction(tx), name)
            }
            Change::Unset(at, name) => {
                self.unset(session, &key_of(self.alloc, at)?.in_transaction(tx), name)
            }
        }
    }

    fn set(&self, session: &mut Session<O>, key: &Key, name: &str) -> Result<Answer, Fault> {
        let name = value_name(self.alloc, name)?;
        let data = data_of(self.alloc, VALUE_BYTES)?;
        Ok(answer_of(
            self.registry
                .set_value(self.rt, session, key, name, TYPE, data, MOMENT),
        ))
    }

    fn unset(&self, session: &mut Session<O>, key: &Key, name: &str) -> Result<Answer, Fault> {
        let name = value_name(self.alloc, name)?;
        Ok(answer_of(
            self.registry
                .delete_value(self.rt, session, key, name, MOMENT),
        ))
    }

    // a read of what is published
    fn look(&self, session: &mut Session<O>, at: &str, look: Look) -> Result<Answer, Fault> {
        let key = key_of(self.alloc, at)?;
        Ok(match look {
            Look::Value(name) => {
                let name = value_name(self.alloc, name)?;
                found(
                    session
                        .get_value(&key, name)
                        .map(|value| Found::of_value(&value)),
                )
            }
            Look::ValueAt(index) => found(
                session
                    .enum_value(&key, index)
                    .map(|value| Found::of_value(&value)),
            ),
            Look::KeyAt(index) => {
                found(
                    session
                        .enum_key(&key, index)
                        .map(|name| Found::of_name(&name)),
                )
            }
            Look::Info => found(session.query_info(&key).map(Found::of_info)),
            Look::Keys | Look::Values => found(
                session
                    .look_up(&key, question_of(self.alloc, look)?)
                    .map(|found| Found::of(&found)),
            ),
        })
    }

    // a read of what a transaction sees
    fn look_in(
        &self,
        session: &mut Session<O>,
        tx: Tx,
        at: &str,
        look: Look,
    ) -> Result<Answer, Fault> {
        let key = key_of(self.alloc, at)?;
        let (rt, registry) = (self.rt, self.registry);
        Ok(answer_of(match look {
            Look::Value(name) => {
                let name = value_name(self.alloc, name)?;
                registry.get_value_transacted(rt, session, tx, &key, name)
            }
            Look::ValueAt(index) => registry.enum_value_transacted(rt, session, tx, &key, index),
            Look::KeyAt(index) => registry.enum_key_transacted(rt, session, tx, &key, index),
            Look::Info => registry.query_info_transacted(rt, session, tx, &key),
            Look::Keys | Look::Values => {
                let question = question_of(self.alloc, look)?;
                registry.look_up_transacted(rt, session, tx, &key, question)
            }
        }))
    }

    fn open_in(&self, session: &mut Session<O>, tx: Tx, at: &str) -> Result<Answer, Fault> {
        let key = key_of(self.alloc, at)?;
        Ok(answer_of(
            self.registry
                .reg_open_key_transacted(self.rt, session, tx, &key),
        ))
    }
}

//! The sessions of a registry, and calls that may be refused memory: such a call has changed nothing, and is made again.
use crate::engine_calls::{Answer, Found, MOMENT};
use crate::fault::Fault;
use crate::oom::asks::tx_of;
use crate::oom::claims::Claimed;
use crate::oom::digest::Digest;
use crate::oom::registry_calls::{Call, Calls, answer_of, refusal_of};
use crate::oom::watched_disk::DiskCalls;
use flusher::{OpenGate, run_flusher};
use histories::Start;
use ktm_calls::{Denied, Key, Receipt, Session, Told, Turn};
use refusals::Refusal;
use std::alloc::Global;
use std::sync::Wait;
use store_engine::StoreEngine;
use store_model::{Outcome, Tx};

// more steps than a flusher makes
const MANY: u32 = 128;

/// What a registry shows. Looking at it takes no memory.
#[derive(Clone, Copy, PartialEq, Eq)]
struct RegistryPicture {
    // the reads of some keys, and what became of the transactions
    reads: Digest,
    outcomes: Digest,
    room: u64,
    disk: DiskCalls,
}

/// Two sessions of a registry, and what was begun in the first of them.
#[derive(Drop)]
pub(crate) struct Caller<O: Start> {
    /// Whether a call was refused memory.
    pub was_refused: bool,
    /// Writes that meet a claim now, and such that meet none.
    pub claims: &'static [Claimed],
    // makes the calls
    session: Session<O>,
    // looks on, and tries what is claimed
    reader: Session<O>,
    transactions: Vec<Tx>,
    // which keys are looked at
    keys: Vec<Key>,
}

/// How a commit and a flusher take a step without memory.
#[derive(Clone, Copy, PartialEq, Eq)]
pub(crate) enum Patience {
    /// They are refused.
    None,
    /// They try again until there is memory.
    Endless,
}

// the reads of some keys, which take no memory
fn reads_of<O: Start>(reader: &mut Session<O>, keys: &[Key]) -> Result<Digest, Fault> {
    let mut now = Digest::new();
    for key in keys {
        now = with_read(now, reader.query_info(key).map(Found::of_info))?;
        let value = reader.enum_value(key, 0);
        now = with_read(now, value.map(|value| Found::of_value(&value)))?;
    }
    Ok(now)
}

fn with_read(digest: Digest, read: Result<Found, Refusal>) -> Result<Digest, Fault> {
    match read {
        Ok(Found::Value(kind, len)) => Ok(digest.number(u64::from(kind)).number(len as u64)),
        Ok(Found::Counts(subkeys, values, time)) => Ok(
            digest
                .number(subkeys as u64)
                .number(values as u64)
                .number(time),
        ),
        Err(Refusal::NotFound) => Ok(digest.number(u64::MAX)),
        _ => Err(Fault::Otherwise("another read")),
    }
}

impl<O: Start> Caller<O> {
    /// Nothing is begun.
    pub(crate) fn new(
        alloc: Global,
        session: Session<O>,
        reader: Session<O>,
        keys: Vec<Key>,
        was_refused: bool,
    ) -> Caller<O> {
        Caller {
            was_refused,
            claims: &[],
            session,
            reader,
            transactions: Vec::new(alloc),
            keys,
        }
    }

    fn picture<E: StoreEngine, R: Wait>(
        &mut self,
        calls: &Calls<'_, E, O, R>,
    ) -> Result<RegistryPicture, Fault> {
        let mut outcomes = Digest::new();
        for tx in &self.transactions {
            outcomes = match calls.outcome(&mut self.session, *tx) {
                Answer::OutcomeIs(Outcome::Active) => outcomes.number(1),
                Answer::OutcomeIs(Outcome::Committed) => outcomes.number(2),
                Answer::OutcomeIs(Outcome::RolledBack) => outcomes.number(3),
                Answer::Refused(Refusal::NoSuchHandle) => outcomes.number(4),
                _ => return Err(Fault::Otherwise("no outcome")),
            };
        }
        Ok(RegistryPicture {
            reads: reads_of(&mut self.reader, &self.keys)?,
            outcomes,
            room: calls.registry.room(calls.rt).bytes,
            disk: calls.watch.calls(),
        })
    }

    // a refused call has changed nothing, not even a claim
    fn expect_unchanged<E: StoreEngine, R: Wait>(
        &mut self,
        calls: &Calls<'_, E, O, R>,
        before: RegistryPicture,
    ) -> Result<(), Fault> {
        self.was_refused = true;
        self.expect_same(calls, before)?;
        for claim in self.claims {
            self.expect_claim(calls, *claim)?;
        }
        self.expect_same(calls, before)
    }

    fn expect_same<E: StoreEngine, R: Wait>(
        &mut self,
        calls: &Calls<'_, E, O, R>,
        before: RegistryPicture,
    ) -> Result<(), Fault> {
        if self.picture(calls)? == before {
            Ok(())
        } else {
            Err(Fault::Otherwise("a refused call has changed something"))
        }
    }

    // a transaction of the other session tries the write, and is rolled back
    fn expect_claim<E: StoreEngine, R: Wait>(
        &mut self,
        calls: &Calls<'_, E, O, R>,
        claim: Claimed,
    ) -> Result<(), Fault> {
        let (change, wanted) = claim.parts();
        let Some(tx) = calls.begin(&mut self.reader)? else {
            return Err(Fault::Twice);
        };
        let answer = calls.write_in(&mut self.reader, tx, change)?;
        let (rt, registry) = (calls.rt, calls.registry);
        let _ = registry.rollback_transaction(rt, &mut self.reader, tx);
        let closed = registry.close_transaction(rt, &mut self.reader, tx);
        if answer_of(closed) != Answer::Done {
            return Err(Fault::Otherwise("another transaction stays"));
        }
        match answer {
            Answer::Added if !wanted => Ok(()),
            Answer::Refused(Refusal::Conflict) if wanted => Ok(()),
            Answer::Refused(Refusal::NoMemory) => Err(Fault::Twice),
            _ => Err(Fault::Otherwise("another claim of a session")),
        }
    }

    /// A call that may take memory: if it is refused memory, all is as it was, and it is made again.
    pub(crate) fn asked<E: StoreEngine, R: Wait>(
        &mut self,
        calls: &Calls<'_, E, O, R>,
        what: Call,
    ) -> Result<Answer, Fault> {
        let before = self.picture(calls)?;
        let answer = calls.call(&mut self.session, &self.transactions, what)?;
        if !answer.is_no_memory() {
            return Ok(answer);
        }
        self.expect_unchanged(calls, before)?;
        unless_refused(calls.call(&mut self.session, &self.transactions, what)?)
    }

    /// A call that takes no memory.
    pub(crate) fn asked_without_memory<E: StoreEngine, R: Wait>(
        &mut self,
        calls: &Calls<'_, E, O, R>,
        what: Call,
    ) -> Result<Answer, Fault> {
        calls.call(&mut self.session, &self.transactions, what)
    }

    /// Begins a transaction.
    pub(crate) fn begin<E: StoreEngine, R: Wait>(
        &mut self,
        calls: &Calls<'_, E, O, R>,
    ) -> Result<(), Fault> {
        self.transactions.reserve(1)?;
        let before = self.picture(calls)?;
        if let Some(tx) = calls.begin(&mut self.session)? {
            return Ok(self.transactions.push(tx)?);
        }
        self.expect_unchanged(calls, before)?;
        match calls.begin(&mut self.session)? {
            Some(tx) => Ok(self.transactions.push(tx)?),
            None => Err(Fault::Twice),
        }
    }
}

// the answer to a call that was made again
fn unless_refused(answer: Answer) -> Result<Answer, Fault> {
    if answer.is_no_memory() {
        Err(Fault::Twice)
    } else {
        Ok(answer)
    }
}

impl<O: Start> Caller<O> {
    /// Commits a transaction. If there is no memory, all is as it was and it is committed again; or its change stands,
    /// for a step of the journal was refused, and a flush makes it durable.
    pub(crate) fn commit<E: StoreEngine, R: Wait>(
        &mut self,
        calls: &Calls<'_, E, O, R>,
        index: usize,
        patience: Patience,
    ) -> Result<Answer, Fault> {
        let tx = tx_of(&self.transactions, index)?;
        let before = self.picture(calls)?;
        let answer = self.commit_once(calls, tx, patience);
        if !answer.is_no_memory() {
            return Ok(answer);
        }
        match calls.outcome(&mut self.session, tx) {
            Answer::OutcomeIs(Outcome::Active) => {
                self.expect_unchanged(calls, before)?;
                unless_refused(self.commit_once(calls, tx, patience))
            }
            Answer::OutcomeIs(Outcome::Committed) if patience == Patience::None => {
                self.was_refused = true;
                self.flush(calls)
            }
            _ => Err(Fault::Otherwise("a refused commit with another outcome")),
        }
    }

    fn commit_once<E: StoreEngine, R: Wait>(
        &mut self,
        calls: &Calls<'_, E, O, R>,
        tx: Tx,
        patience: Patience,
    ) -> Answer {
        let (rt, session) = (calls.rt, &mut self.session);
        let committed = match patience {
            Patience::None => calls
                .registry
                .try_commit_transaction(rt, session, tx, MOMENT),
            Patience::Endless => calls.registry.commit_transaction(rt, session, tx, MOMENT),
        };
        self.received(committed)
    }

    // the number of a receipt, which the other session learns
    fn received(&mut self, answer: Result<(Receipt<O>, Told), Denied>) -> Answer {
        match answer {
            Ok((receipt, _told)) => {
                self.reader.learn(&receipt);
                Answer::Receipt(receipt.number())
            }
            Err(denied) => Answer::Refused(refusal_of(&denied)),
        }
    }

    /// Makes all durable. If there is no memory for a step of the journal, those before it stand.
    pub(crate) fn flush<E: StoreEngine, R: Wait>(
        &mut self,
        calls: &Calls<'_, E, O, R>,
    ) -> Result<Answer, Fault> {
        let before = self.picture(calls)?;
        let answer = self.flush_once(calls)?;
        if !answer.is_no_memory() {
            return Ok(answer);
        }
        let now = self.picture(calls)?;
        self.expect_unchanged(
            calls,
            RegistryPicture {
                disk: now.disk,
                ..before
            },
        )?;
        unless_refused(self.flush_once(calls)?)
    }

    fn flush_once<E: StoreEngine, R: Wait>(
        &mut self,
        calls: &Calls<'_, E, O, R>,
    ) -> Result<Answer, Fault> {
        let Some(key) = self.keys.first() else {
            return Err(Fault::Otherwise("no key"));
        };
        let flushed = calls.registry.flush_key(calls.rt, &mut self.session, key);
        Ok(self.received(flushed))
    }

    /// Makes the flusher's steps. If there is no memory for one, those before it stand.
    pub(crate) fn checkpoint<E: StoreEngine, R: Wait>(
        &mut self,
        calls: &Calls<'_, E, O, R>,
    ) -> Result<Answer, Fault> {
        let before = self.picture(calls)?;
        let answer = checkpoint_once(calls);
        if !answer.is_no_memory() {
            return Ok(answer);
        }
        let now = self.picture(calls)?;
        self.expect_unchanged(
            calls,
            RegistryPicture {
                disk: now.disk,
                room: now.room,
                ..before
            },
        )?;
        unless_refused(checkpoint_once(calls))
    }

    /// The turns of a flusher that is told to stop, until it does.
    pub(crate) fn turns<E: StoreEngine, R: Wait>(
        &mut self,
        calls: &Calls<'_, E, O, R>,
        patience: Patience,
    ) -> Result<Answer, Fault> {
        calls.registry.stop_flusher(calls.rt);
        if patience == Patience::Endless {
            return match run_flusher(calls.rt, calls.registry, &OpenGate) {
                Ok(stopped) => Ok(Answer::Receipt(stopped.number())),
                Err(told) => Ok(Answer::of(told.reply())),
            };
        }
        let mut was_refused = false;
        for _turn in 0..MANY {
            match self.turn(calls)? {
                Answer::Stepped(_) => {}
                Answer::Refused(Refusal::NoMemory) if was_refused => return Err(Fault::Twice),
                Answer::Refused(Refusal::NoMemory) => was_refused = true,
                answer => return Ok(answer),
            }
        }
        Err(Fault::Otherwise("more turns"))
    }

    // one turn: if there is no memory for it, all is as it was
    fn turn<E: StoreEngine, R: Wait>(
        &mut self,
        calls: &Calls<'_, E, O, R>,
    ) -> Result<Answer, Fault> {
        let before = self.picture(calls)?;
        match calls.registry.turn(calls.rt) {
            Ok(Turn::Step(told)) => Ok(Answer::of(told.reply())),
            Ok(Turn::Stopped(stopped)) => Ok(Answer::Receipt(stopped.number())),
            Err(denied) => {
                self.expect_unchanged(calls, before)?;
                Ok(Answer::Refused(refusal_of(&denied)))
            }
        }
    }

    /// Ends all, however far it came, which takes no memory: whether a call was refused memory.
    pub(crate) fn end<E: StoreEngine, R: Wait>(
        self,
        calls: &Calls<'_, E, O, R>,
    ) -> Result<bool, Fault> {
        let Caller {
            was_refused,
            claims: _,
            mut session,
            reader,
            transactions,
            keys: _,
        } = self;
        for tx in &transactions {
            let (rt, registry) = (calls.rt, calls.registry);
            let rolled_back = registry.rollback_transaction(rt, &mut session, *tx);
            expect_ended(answer_of(rolled_back))?;
            let closed = registry.close_transaction(rt, &mut session, *tx);
            expect_ended(answer_of(closed))?;
        }
        for session in [session, reader] {
            let (_asker, ended) = calls.registry.end_session(calls.rt, session);
            if answer_of(ended) != Answer::Done {
                return Err(Fault::Otherwise("a session that doesn't end"));
            }
        }
        Ok(was_refused)
    }
}

// it is ended, or was before
fn expect_ended(answer: Answer) -> Result<(), Fault> {
    match answer {
        Answer::Done | Answer::Refused(Refusal::NotActive | Refusal::NoSuchHandle) => Ok(()),
        _ => Err(Fault::Otherwise("another end of a transaction")),
    }
}

fn checkpoint_once<E: StoreEngine, O: Start, R: Wait>(calls: &Calls<'_, E, O, R>) -> Answer {
    match calls.registry.checkpoint(calls.rt) {
        Ok(receipt) => Answer::Receipt(receipt.number()),
        Err(denied) => Answer::Refused(refusal_of(&denied)),
    }
}

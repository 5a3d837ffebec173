//! The calls of a registry by functions that promise nothing, and answers that tests compare.
//!
//! The promises of the calls themselves would be stated at each step of a test, though no test relies on them.
use disk_model::Progress;
use histories::{EventCount, Permission, RequestCount, Start};
use ktm_calls::{
    Asker, Denied, Disposition, EventKind, Key, Receipt, Registry, Session, Told, Turn, WholeCommit,
};
use published_trees::{ChangeCount, SeenChanges};
use refusals::Refusal;
use reg_names::{Name, Path};
use reg_tree::{Data, Info, Op, Value};
use std::alloc::Global;
use std::sync::Wait;
use std::sync::ledger::Blank;
use store_engine::StoreEngine;
use store_model::{Outcome, ReadResult, Reply, Tx};
use uuid::Uuid;

/// The type of each value: REG_BINARY.
pub const KIND: u32 = 3;

/// What a call answers.
#[derive(Clone, Copy, Debug)]
pub enum Answer {
    /// It is done.
    Done,
    /// A session of this number.
    Session(u32),
    /// It was accepted as the change of this number.
    Accepted(u64),
    /// It was added to a transaction.
    Added,
    /// The key was there.
    Opened,
    /// What became of a transaction.
    OutcomeIs(Outcome),
    /// A receipt of this number.
    Receipt(u64),
    /// How many subkeys and values a key has, and its last written time.
    Counts(usize, usize, u64),
    /// A key whose name has this one character.
    Named(u8),
    /// A value of one byte.
    Byte(u8),
    /// A step of the flusher.
    Step(EventKind, Progress),
    /// A step of the flusher was refused.
    StepRefused(EventKind, Refusal),
    /// The flusher stopped, with all up to this number durable.
    Stopped(u64),
    /// Used room of the journal, in bytes.
    Room(u64),
    /// The call was refused.
    Refused(Refusal),
    /// Another reply than the call may have.
    Other,
}

impl Answer {
    /// What is told of an event, or of a step of the flusher.
    pub fn of(told: &Told) -> Answer {
        match told.reply() {
            Reply::Done => Answer::Done,
            Reply::Accepted { number, .. } => Answer::Accepted(*number),
            Reply::Added { .. } => Answer::Added,
            Reply::Opened => Answer::Opened,
            Reply::Read { found } => found_of(found),
            Reply::Stepped { progress } => Answer::Step(told.kind(), *progress),
            Reply::Refused { refusal } => Answer::StepRefused(told.kind(), *refusal),
            _ => Answer::Other,
        }
    }
}

/// An answer or a refusal as one value.
pub fn value_of(answer: Result<Answer, Refusal>) -> Answer {
    match answer {
        Ok(answer) => answer,
        Err(why) => Answer::Refused(why),
    }
}

/// The key with this path: in the hive of the digit before a colon, or in hive 0.
pub fn key(alloc: Global, text: &str) -> Result<Key, Refusal> {
    let bytes = text.as_bytes();
    if bytes.len() > 1 && bytes[1] == b':' {
        return key_in(alloc, bytes[0].wrapping_sub(b'0'), &bytes[2..]);
    }
    key_in(alloc, 0, bytes)
}

// the key of a hive with this path
fn key_in(alloc: Global, hive: u8, text: &[u8]) -> Result<Key, Refusal> {
    let mut units = Vec::new(alloc);
    for byte in text {
        units.push(u16::from(*byte))?;
    }
    Ok(Key::new(hive, Path::parse(alloc, units.as_slice())?))
}

// a key of the same path
fn copied(key: &Key) -> Result<Key, Refusal> {
    let path = key.path.clone()?;
    Ok(Key::new(key.hive, path))
}

/// Why a call was denied. There is a refusal in each denial.
pub fn refusal_of(denied: Denied) -> Refusal {
    denied.refusal().unwrap_or(Refusal::NoMemory)
}

// what is told, or why the call was denied
fn answered(answer: Result<Told, Denied>) -> Result<Answer, Refusal> {
    match answer {
        Ok(told) => Ok(Answer::of(&told)),
        Err(denied) => Err(refusal_of(denied)),
    }
}

// the same of a creation
fn disposed(answer: Result<(Disposition, Told), Denied>) -> Result<Answer, Refusal> {
    match answer {
        Ok((Disposition::Created, told)) => Ok(Answer::of(&told)),
        Ok((Disposition::Opened, _told)) => Ok(Answer::Opened),
        Err(denied) => Err(refusal_of(denied)),
    }
}

// what was read
fn found_of(found: &ReadResult) -> Answer {
    match found {
        ReadResult::Value { value } => byte_of(value),
        ReadResult::Key { name } => character_of(name),
        ReadResult::Counts { info } => counts_of(*info),
        _ => Answer::Other,
    }
}

// the one byte of a value of the type that tests write
fn byte_of(value: &Value) -> Answer {
    match value.data.bytes() {
        [byte] if value.kind == KIND => Answer::Byte(*byte),
        _ => Answer::Other,
    }
}

// the one character of a name
fn character_of(name: &Name) -> Answer {
    match name.units() {
        [unit] if *unit < 128 => Answer::Named(*unit as u8),
        _ => Answer::Other,
    }
}

// what a key has
fn counts_of(info: Info) -> Answer {
    let Info {
        subkeys,
        values,
        time,
    } = info;
    Answer::Counts(subkeys, values, time)
}

/// A registry over an engine that was just opened, and one who has seen nothing of it yet.
pub fn share<E: StoreEngine + Drop, O: Start, R: Wait>(
    rt: &R,
    alloc: Global,
    engine: E,
    count: ChangeCount,
    seen: SeenChanges,
) -> Result<(Registry<E, O>, Asker<O>), Refusal> {
    let (requests, share) = Blank::new(1).open::<O>();
    let requests = RequestCount::new(requests);
    let events = EventCount::open();
    let asker = Asker::first(&events, &seen, Permission::sole(share));
    match Registry::<E, O>::new(alloc, rt, engine, events, requests, count, seen) {
        Ok(registry) => Ok((registry, asker)),
        Err((why, _engine)) => Err(why),
    }
}

/// A registry, as a test calls it.
pub struct Calls<'a, E: StoreEngine, O: Start, R: Wait> {
    /// The runtime.
    pub rt: &'a R,
    /// Where keys and names are made.
    pub alloc: Global,
    /// The registry.
    pub registry: &'a Registry<E, O>,
}

impl<'a, E: StoreEngine, O: Start, R: Wait> Drop for Calls<'a, E, O, R> {
    fn drop(self) {
        let Calls {
            rt: _,
            alloc: _,
            registry: _,
        } = self;
    }
}

impl<'a, E: StoreEngine, O: Start, R: Wait> Calls<'a, E, O, R> {
    /// Opens a session.
    pub fn start(&self) -> Result<Session<O>, Refusal> {
        // these programs have no proofs, and so no permissions: their sessions ask with none
        let asker = self.registry.asker(self.rt, Permission::none());
        match self.registry.session(self.rt, asker) {
            Ok((session, _told)) => Ok(session),
            Err((denied, _asker)) => Err(refusal_of(denied)),
        }
    }

    /// A session that isn't open: one that was, and has ended.
    pub fn closed(&self) -> Result<Session<O>, Refusal> {
        let mut session = self.start()?;
        let closed = session.closed_handle();
        let open = session.switch_to(closed);
        match self.registry.end_handle(self.rt, open, &mut session) {
            Ok(_told) => Ok(session),
            Err(denied) => Err(refusal_of(denied)),
        }
    }

    /// Ends a session.
    pub fn end(&self, session: Session<O>) -> Result<Answer, Refusal> {
        let (_asker, told) = self.registry.end_session(self.rt, session);
        answered(told)
    }

    /// Creates a key.
    pub fn create(
        &self,
        session: &mut Session<O>,
        key: &Key,
        moment: u64,
    ) -> Result<Answer, Refusal> {
        disposed(self.registry.reg_create_key(self.rt, session, key, moment))
    }

    /// Deletes a key.
    pub fn delete(&self, session: &mut Session<O>, key: &Key) -> Result<Answer, Refusal> {
        answered(self.registry.reg_delete_key(self.rt, session, key, 0))
    }

    /// Sets a value of one byte.
    pub fn set(
        &self,
        session: &mut Session<O>,
        key: &Key,
        name: &str,
        byte: u8,
    ) -> Result<Answer, Refusal> {
        let name = Name::value_in_bytes(self.alloc, name.as_bytes())?;
        let data = Data::new(self.alloc, &[byte])?;
        answered(
            self.registry
                .set_value(self.rt, session, key, name, KIND, data, 0),
        )
    }

    /// Deletes a value.
    pub fn unset(
        &self,
        session: &mut Session<O>,
        key: &Key,
        name: &str,
    ) -> Result<Answer, Refusal> {
        let name = Name::value_in_bytes(self.alloc, name.as_bytes())?;
        answered(self.registry.delete_value(self.rt, session, key, name, 0))
    }

    /// Reads a value.
    pub fn get(&self, session: &mut Session<O>, key: &Key, name: &str) -> Result<Answer, Refusal> {
        let name = Name::value_in_bytes(self.alloc, name.as_bytes())?;
        let value = session.get_value(key, name)?;
        Ok(byte_of(&value))
    }

    /// Reads the value at an index.
    pub fn value_at(
        &self,
        session: &mut Session<O>,
        key: &Key,
        index: usize,
    ) -> Result<Answer, Refusal> {
        let value = session.enum_value(key, index)?;
        Ok(byte_of(&value))
    }

    /// The name of the subkey at an index.
    pub fn key_at(
        &self,
        session: &mut Session<O>,
        key: &Key,
        index: usize,
    ) -> Result<Answer, Refusal> {
        let name = session.enum_key(key, index)?;
        Ok(character_of(&name))
    }

    /// What a key has.
    pub fn info(&self, session: &mut Session<O>, key: &Key) -> Result<Answer, Refusal> {
        let info = session.query_info(key)?;
        Ok(counts_of(info))
    }

    /// Makes all that was accepted durable.
    pub fn flush(&self, session: &mut Session<O>, key: &Key) -> Result<Receipt<O>, Refusal> {
        match self.registry.flush_key(self.rt, session, key) {
            Ok((receipt, _told)) => Ok(receipt),
            Err(denied) => Err(refusal_of(denied)),
        }
    }

    /// One turn of the flusher.
    pub fn turn(&self) -> Result<Answer, Refusal> {
        match self.registry.turn(self.rt) {
            Ok(Turn::Step(told)) => Ok(Answer::of(&told)),
            Ok(Turn::Stopped(stopped)) => Ok(Answer::Stopped(stopped.number())),
            Err(Denied::Told(told)) => Ok(Answer::of(&told)),
            Err(Denied::NoMemory) => Err(Refusal::NoMemory),
        }
    }

    /// Makes the steps of the flusher until there is nothing to do.
    pub fn checkpoint(&self) -> Result<Answer, Refusal> {
        match self.registry.checkpoint(self.rt) {
            Ok(receipt) => Ok(Answer::Receipt(receipt.number())),
            Err(denied) => Err(refusal_of(denied)),
        }
    }
}

impl<'a, E: StoreEngine, O: Start, R: Wait> Calls<'a, E, O, R> {
    /// Begins a transaction.
    pub fn begin(&self, session: &mut Session<O>) -> Result<Tx, Refusal> {
        self.begin_for(session, Uuid::nil())
    }

    /// Begins a transaction for a unit of work.
    pub fn begin_for(&self, session: &mut Session<O>, unit: Uuid) -> Result<Tx, Refusal> {
        match self.registry.create_transaction(self.rt, session, unit) {
            Ok((tx, _told)) => Ok(tx),
            Err(denied) => Err(refusal_of(denied)),
        }
    }

    /// A whole transaction, whose handle is closed.
    pub fn transact(
        &self,
        session: &mut Session<O>,
        moment: u64,
        ops: Vec<Op>,
    ) -> Result<Receipt<O>, Refusal> {
        let unit = Uuid::nil();
        match self.registry.transact(self.rt, session, unit, moment, ops) {
            Ok(
                WholeCommit {
                    receipt,
                    told: _,
                    handle: None,
                },
            ) => Ok(receipt),
            Ok(_) => Err(Refusal::NoSuchHandle),
            Err(why) => Err(why.refusal().unwrap_or(Refusal::NoMemory)),
        }
    }

    /// Creates a key in a transaction.
    pub fn create_in(
        &self,
        session: &mut Session<O>,
        tx: Tx,
        key: &Key,
        moment: u64,
    ) -> Result<Answer, Refusal> {
        disposed(
            self.registry
                .reg_create_key_transacted(self.rt, session, tx, key, moment),
        )
    }

    /// Sets a value of one byte in a transaction.
    pub fn set_in(
        &self,
        session: &mut Session<O>,
        tx: Tx,
        key: &Key,
        name: &str,
        byte: u8,
    ) -> Result<Answer, Refusal> {
        let key = copied(key)?;
        self.set(session, &key.in_transaction(tx), name, byte)
    }

    /// Deletes a key in a transaction.
    pub fn delete_in(
        &self,
        session: &mut Session<O>,
        tx: Tx,
        key: &Key,
    ) -> Result<Answer, Refusal> {
        answered(
            self.registry
                .reg_delete_key_transacted(self.rt, session, tx, key, 0),
        )
    }

    /// Reads a value in the view of a transaction.
    pub fn get_in(
        &self,
        session: &mut Session<O>,
        tx: Tx,
        key: &Key,
        name: &str,
    ) -> Result<Answer, Refusal> {
        let name = Name::value_in_bytes(self.alloc, name.as_bytes())?;
        answered(
            self.registry
                .get_value_transacted(self.rt, session, tx, key, name),
        )
    }

    /// Reads the value at an index in the view of a transaction.
    pub fn value_at_in(
        &self,
        session: &mut Session<O>,
        tx: Tx,
        key: &Key,
        index: usize,
    ) -> Result<Answer, Refusal> {
        answered(
            self.registry
                .enum_value_transacted(self.rt, session, tx, key, index),
        )
    }

    /// The name of the subkey at an index in the view of a transaction.
    pub fn key_at_in(
        &self,
        session: &mut Session<O>,
        tx: Tx,
        key: &Key,
        index: usize,
    ) -> Result<Answer, Refusal> {
        answered(
            self.registry
                .enum_key_transacted(self.rt, session, tx, key, index),
        )
    }

    /// What a key has in the view of a transaction.
    pub fn info_in(&self, session: &mut Session<O>, tx: Tx, key: &Key) -> Result<Answer, Refusal> {
        answered(
            self.registry
                .query_info_transacted(self.rt, session, tx, key),
        )
    }

    /// Opens a key in the view of a transaction.
    pub fn open_in(&self, session: &mut Session<O>, tx: Tx, key: &Key) -> Result<Answer, Refusal> {
        answered(
            self.registry
                .reg_open_key_transacted(self.rt, session, tx, key),
        )
    }

    /// Commits a transaction.
    pub fn commit(
        &self,
        session: &mut Session<O>,
        tx: Tx,
        moment: u64,
    ) -> Result<Receipt<O>, Refusal> {
        match self
            .registry
            .commit_transaction(self.rt, session, tx, moment)
        {
            Ok((receipt, _told)) => Ok(receipt),
            Err(denied) => Err(refusal_of(denied)),
        }
    }

    /// Rolls a transaction back.
    pub fn roll_back(&self, session: &mut Session<O>, tx: Tx) -> Result<Answer, Refusal> {
        answered(self.registry.rollback_transaction(self.rt, session, tx))
    }

    /// Closes a transaction's handle.
    pub fn close(&self, session: &mut Session<O>, tx: Tx) -> Result<Answer, Refusal> {
        answered(self.registry.close_transaction(self.rt, session, tx))
    }

    /// What became of a transaction.
    pub fn outcome(&self, session: &mut Session<O>, tx: Tx) -> Result<Answer, Refusal> {
        match self.registry.outcome(self.rt, session, tx) {
            Ok((outcome, _told)) => Ok(Answer::OutcomeIs(outcome)),
            Err(denied) => Err(refusal_of(denied)),
        }
    }
}

//! The calls of a registry, by functions that promise nothing.
//!
//! The promises of the calls themselves would be stated at each step of a caller, though none here relies on them.
use crate::trouble::Trouble;
use histories::{Permission, Start};
use ktm_calls::{Key, Registry, Session};
use refusals::Refusal;
use reg_names::{Name, Path};
use reg_tree::{Data, Op, Value};
use std::alloc::Global;
use std::sync::Wait;
use store_engine::StoreEngine;
use store_model::Tx;
use uuid::Uuid;

// the type of each value: REG_BINARY
const KIND: u32 = 3;

/// A registry, as its caller on one thread calls it.
pub struct Calls<'a, E: StoreEngine, O: Start, R: Wait> {
    /// The runtime.
    pub rt: &'a R,
    /// Where keys and names are made.
    pub alloc: Global,
    /// The registry.
    pub registry: &'a Registry<E, O>,
}

impl<'a, E: StoreEngine, O: Start, R: Wait> Drop for Calls<'a, E, O, R> {
    fn drop(self) {
        let Calls {
            rt: _,
            alloc: _,
            registry: _,
        } = self;
    }
}

/// The key of this path in a hive.
pub fn key(alloc: Global, hive: u8, text: &[u8]) -> Result<Key, Refusal> {
    let mut units = Vec::new(alloc);
    for byte in text {
        units.push(u16::from(*byte))?;
    }
    Ok(Key::new(hive, Path::parse(alloc, units.as_slice())?))
}

/// The operation that sets a value.
pub fn set_op(alloc: Global, key: &Key, name: &[u8], data: Data) -> Result<Op, Refusal> {
    let path = key.path.clone()?;
    let name = Name::value_in_bytes(alloc, name)?;
    let hive = key.hive;
    let kind = KIND;
    Ok(Op::SetValue {
        hive,
        path,
        name,
        kind,
        data,
    })
}

impl<'a, E: StoreEngine, O: Start, R: Wait> Calls<'a, E, O, R> {
    /// Opens a session.
    pub fn start(&self) -> Result<Session<O>, Trouble> {
        // these programs have no proofs, and so no permissions: they ask with none
        let asker = self.registry.asker(self.rt, Permission::none());
        match self.registry.session(self.rt, asker) {
            Ok((session, _told)) => Ok(session),
            Err((denied, _asker)) => Err(Trouble::from(denied)),
        }
    }

    /// Ends a session.
    pub fn end(&self, session: Session<O>) -> Result<(), Trouble> {
        let (_asker, told) = self.registry.end_session(self.rt, session);
        match told {
            Ok(_told) => Ok(()),
            Err(denied) => Err(Trouble::from(denied)),
        }
    }

    /// Begins a transaction.
    pub fn begin(&self, session: &mut Session<O>) -> Result<Tx, Trouble> {
        match self
            .registry
            .create_transaction(self.rt, session, Uuid::nil())
        {
            Ok((tx, _told)) => Ok(tx),
            Err(denied) => Err(Trouble::from(denied)),
        }
    }

    /// Commits a transaction and waits until it is durable, and closes it: the number of its change.
    pub fn commit(&self, session: &mut Session<O>, tx: Tx, moment: u64) -> Result<u64, Trouble> {
        let number = match self
            .registry
            .commit_transaction(self.rt, session, tx, moment)
        {
            Ok((receipt, _told)) => receipt.number(),
            Err(denied) => return Err(Trouble::from(denied)),
        };
        match self.registry.close_transaction(self.rt, session, tx) {
            Ok(_told) => Ok(number),
            Err(denied) => Err(Trouble::from(denied)),
        }
    }

    /// A whole transaction, once it is durable: the number of its change.
    pub fn transact(
        &self,
        session: &mut Session<O>,
        ops: Vec<Op>,
        moment: u64,
    ) -> Result<u64, Trouble> {
        let unit = Uuid::nil();
        match self.registry.transact(self.rt, session, unit, moment, ops) {
            Ok(made) => Ok(made.receipt.number()),
            Err(why) => Err(Trouble::Refused(why.refusal().unwrap_or(Refusal::NoMemory))),
        }
    }

    /// Creates a key, or opens it.
    pub fn create(&self, session: &mut Session<O>, key: &Key, moment: u64) -> Result<(), Trouble> {
        match self.registry.reg_create_key(self.rt, session, key, moment) {
            Ok((_disposition, _told)) => Ok(()),
            Err(denied) => Err(Trouble::from(denied)),
        }
    }

    /// Sets a value.
    pub fn set(
        &self,
        session: &mut Session<O>,
        key: &Key,
        name: &[u8],
        data: Data,
        moment: u64,
    ) -> Result<(), Trouble> {
        let name = Name::value_in_bytes(self.alloc, name)?;
        match self
            .registry
            .set_value(self.rt, session, key, name, KIND, data, moment)
        {
            Ok(_told) => Ok(()),
            Err(denied) => Err(Trouble::from(denied)),
        }
    }

    /// Reads a value.
    pub fn get(&self, session: &mut Session<O>, key: &Key, name: &[u8]) -> Result<Value, Refusal> {
        let name = Name::value_in_bytes(self.alloc, name)?;
        let value = session.get_value(key, name)?;
        Ok(value)
    }

    /// Makes all that was accepted durable.
    pub fn flush(&self, session: &mut Session<O>, key: &Key) -> Result<(), Trouble> {
        match self.registry.flush_key(self.rt, session, key) {
            Ok((_receipt, _told)) => Ok(()),
            Err(denied) => Err(Trouble::from(denied)),
        }
    }

    /// Makes all that was accepted durable, moves it into the hives and frees the journal's room.
    pub fn checkpoint(&self) -> Result<(), Trouble> {
        match self.registry.checkpoint(self.rt) {
            Ok(_receipt) => Ok(()),
            Err(denied) => Err(Trouble::from(denied)),
        }
    }
}

//! Events and questions as plain values, from which each event is made anew: an event that is refused memory is gone.
//!
//! All is asked of hive 0, and of one unit of work.
use crate::engine_calls::{SESSION, beginning, committing, writing, writing_in};
use crate::fault::Fault;
use crate::oom::operations::{create, delete, path, set, unset, value_name};
use reg_tree::Op;
use std::alloc::Global;
use store_model::{Event, Question, Tx};
use uuid::Uuid;

/// How many bytes each value gets: more than its record holds.
pub(crate) const VALUE_BYTES: usize = 600;

/// An operation on the key of a path.
#[derive(Clone, Copy)]
pub(crate) enum Change {
    Create(&'static str),
    Delete(&'static str),
    Set(&'static str, &'static str),
    Unset(&'static str, &'static str),
}

/// What is read of a key.
#[derive(Clone, Copy)]
pub(crate) enum Look {
    Value(&'static str),
    ValueAt(usize),
    KeyAt(usize),
    Keys,
    Values,
    Info,
}

/// An event. Transactions are named by their order, from 0 on.
#[derive(Clone, Copy)]
pub(crate) enum Ask {
    Start(u32),
    End(u32),
    Write(Change),
    Read(&'static str, Look),
    Begin,
    WriteIn(usize, Change),
    ReadIn(usize, &'static str, Look),
    Commit(usize),
    Rollback(usize),
    Close(usize),
    Outcome(usize),
    OutcomeOf,
    FlushAsk,
    Acked(u64),
    Fold,
    Journal,
    Flush,
    /// A step of the flush of the hive of outcomes.
    FlushOutcomes,
    Trim,
}

/// The operation, made anew.
pub(crate) fn op_of(alloc: Global, change: Change) -> Result<Op, Fault> {
    match change {
        Change::Create(at) => create(alloc, at),
        Change::Delete(at) => delete(alloc, at),
        Change::Set(at, name) => set(alloc, at, name, VALUE_BYTES),
        Change::Unset(at, name) => unset(alloc, at, name),
    }
}

/// The question, made anew.
pub(crate) fn question_of(alloc: Global, look: Look) -> Result<Question, Fault> {
    Ok(match look {
        Look::Value(name) => Question::ValueOf {
            name: value_name(alloc, name)?,
        },
        Look::ValueAt(index) => Question::ValueAt { index },
        Look::KeyAt(index) => Question::KeyAt { index },
        Look::Keys => Question::KeysOf,
        Look::Values => Question::ValuesOf,
        Look::Info => Question::InfoOf,
    })
}

/// A transaction, by its order.
pub(crate) fn tx_of(transactions: &[Tx], index: usize) -> Result<Tx, Fault> {
    match transactions.get(index) {
        Some(tx) => Ok(*tx),
        None => Err(Fault::Otherwise("no such transaction")),
    }
}

/// The event, made anew.
pub(crate) fn event_of(alloc: Global, transactions: &[Tx], what: Ask) -> Result<Event, Fault> {
    let session = SESSION;
    Ok(match what {
        Ask::Start(session) => Event::StartSession { session },
        Ask::End(session) => Event::EndSession { session },
        Ask::Write(change) => writing(op_of(alloc, change)?),
        Ask::Read(at, look) => Event::Read {
            session,
            hive: 0,
            path: path(alloc, at)?,
            question: question_of(alloc, look)?,
        },
        Ask::Begin => beginning(),
        Ask::OutcomeOf => Event::OutcomeOf { id: Uuid::nil() },
        Ask::FlushAsk => Event::FlushAsk,
        Ask::Acked(number) => Event::Acked { number },
        Ask::Fold => Event::Fold,
        Ask::Journal => Event::JournalStep,
        Ask::Flush => Event::FlusherStep { hive: 0 },
        Ask::FlushOutcomes => Event::FlusherStep { hive: 2 },
        Ask::Trim => Event::TrimStep,
        _ => transacted_of(alloc, transactions, what)?,
    })
}

// the same of an event that names a transaction
fn transacted_of(alloc: Global, transactions: &[Tx], what: Ask) -> Result<Event, Fault> {
    let session = SESSION;
    Ok(match what {
        Ask::WriteIn(index, change) => {
            writing_in(tx_of(transactions, index)?, op_of(alloc, change)?)
        }
        Ask::ReadIn(index, at, look) => Event::TxRead {
            session,
            tx: tx_of(transactions, index)?,
            hive: 0,
            path: path(alloc, at)?,
            question: question_of(alloc, look)?,
        },
        Ask::Commit(index) => committing(tx_of(transactions, index)?),
        Ask::Rollback(index) => Event::Rollback {
            session,
            tx: tx_of(transactions, index)?,
        },
        Ask::Close(index) => Event::Close {
            session,
            tx: tx_of(transactions, index)?,
        },
        Ask::Outcome(index) => Event::Outcome {
            session,
            tx: tx_of(transactions, index)?,
        },
        _ => return Err(Fault::Otherwise("an event without a transaction")),
    })
}

//! The calls of a store, by functions that promise next to nothing.
//!
//! The promises of the calls themselves would be stated at each step of a caller, though none here relies on them.

use crate::fault::Fault;
use disk_model::{Disk, MemDisk};
use engine::Engine;
use recovery::Opened;
use refusals::Refusal;
use refusals::limits::MOST_HIVES;
use reg_names::Name;
use reg_tree::{Info, Op, Trees, Value};
use std::alloc::{AllocError, Global};
use store_model::{Event, Outcome, Progress, ReadResult, Reply, Tx};
use uuid::Uuid;

/// The session of every event.
pub(crate) const SESSION: u32 = 1;

/// The moment of every change.
pub(crate) const MOMENT: u64 = 1;

// more steps than any repair takes
const MOST_REPAIRS: u32 = 10_000;

/// A reply without what it lists, so that it is copied and dropped for nothing.
#[derive(Clone, Copy, PartialEq, Eq)]
pub(crate) enum Answer {
    Done,
    /// The number of the change.
    Accepted(u64),
    Added,
    Opened,
    Found(Found),
    Begun(Tx),
    Awaits(u64),
    OutcomeIs(Outcome),
    /// The number of a unit of work's last commit.
    CommittedAs(u64),
    Receipt(u64),
    NotYet,
    /// The number of the last change.
    Folded(u64),
    Stepped(Progress),
    Refused(Refusal),
}

/// What was read of a key, without its bytes.
#[derive(Clone, Copy, PartialEq, Eq)]
pub(crate) enum Found {
    /// The type of a value, and how many bytes of data it has.
    Value(u32, usize),
    /// How many units the name of a subkey has, and the first of them.
    Key(usize, u16),
    /// How many names of subkeys or values.
    Names(usize),
    /// How many subkeys and values, and the moment of the last write.
    Counts(usize, usize, u64),
}

impl Found {
    /// What is found, without its bytes.
    pub(crate) fn of(found: &ReadResult) -> Found {
        match found {
            ReadResult::Value { value } => Found::of_value(value),
            ReadResult::Key { name } => Found::of_name(name),
            ReadResult::Keys { names } | ReadResult::ValueNames { names } => {
                Found::Names(names.list().len())
            }
            ReadResult::Counts { info } => Found::of_info(*info),
        }
    }

    /// A value, without its bytes.
    pub(crate) fn of_value(value: &Value) -> Found {
        Found::Value(value.kind, value.data.bytes().len())
    }

    /// The name of a subkey.
    pub(crate) fn of_name(name: &Name) -> Found {
        let units = name.units();
        Found::Key(units.len(), units.first().copied().unwrap_or(0))
    }

    /// What a key has.
    pub(crate) fn of_info(info: Info) -> Found {
        let Info {
            subkeys,
            values,
            time,
        } = info;
        Found::Counts(subkeys, values, time)
    }
}

impl Answer {
    /// Whether memory was refused.
    pub(crate) fn is_no_memory(self) -> bool {
        matches!(self, Answer::Refused(Refusal::NoMemory))
    }

    /// A reply, without what it lists.
    pub(crate) fn of(reply: &Reply) -> Answer {
        match reply {
            Reply::Done => Answer::Done,
            Reply::Accepted { number, .. } => Answer::Accepted(*number),
            Reply::Added { .. } => Answer::Added,
            Reply::Opened => Answer::Opened,
            Reply::Read { found } => Answer::Found(Found::of(found)),
            Reply::Begun { tx } => Answer::Begun(*tx),
            Reply::Awaits { number } => Answer::Awaits(*number),
            Reply::OutcomeIs { outcome } => Answer::OutcomeIs(*outcome),
            Reply::CommittedAs { number } => Answer::CommittedAs(*number),
            Reply::Receipt { number } => Answer::Receipt(*number),
            Reply::NotYet => Answer::NotYet,
            Reply::Folded { number } => Answer::Folded(*number),
            Reply::Stepped { progress } => Answer::Stepped(*progress),
            Reply::Refused { refusal } => Answer::Refused(*refusal),
        }
    }
}

/// Makes a store of some trees.
pub(crate) fn make<D: Disk>(alloc: Global, disk: &mut D, trees: &Trees) -> Result<(), Refusal> {
    if trees.len() > MOST_HIVES {
        return Err(Refusal::NoSeat);
    }
    recovery::create(alloc, disk, Uuid::nil(), trees)
}

/// Opens the store that is on a disk.
pub(crate) fn open<D: Disk>(alloc: Global, disk: D) -> Result<Opened<D>, (Refusal, D)> {
    recovery::open(alloc, disk)
}

/// Repairs a store.
pub(crate) fn repair_all<D: Disk>(store: &mut Opened<D>) -> Result<(), Fault> {
    for _step in 0..MOST_REPAIRS {
        if store.repair_step()? == Progress::Idle {
            return Ok(());
        }
    }
    Err(Fault::Otherwise("a repair without end"))
}

/// An engine over a store; if it is refused the store is handed back, with `Faulted` if a repair is left.
pub(crate) fn begin<D: Disk + Drop>(
    alloc: Global,
    store: Opened<D>,
) -> Result<Engine<D>, (Refusal, Opened<D>)> {
    if !store.is_whole() {
        return Err((Refusal::Faulted, store));
    }
    Engine::new(alloc, store)
}

/// An engine over the store that is on a disk, once it is repaired.
pub(crate) fn engine_on<D: Disk + Drop>(alloc: Global, disk: D) -> Result<Engine<D>, Fault> {
    let mut store = match open(alloc, disk) {
        Ok(store) => store,
        Err((why, _)) => return Err(Fault::from(why)),
    };
    repair_all(&mut store)?;
    match begin(alloc, store) {
        Ok(engine) => Ok(engine),
        Err((why, _)) => Err(Fault::from(why)),
    }
}

/// One event.
pub(crate) fn ask<D: Disk>(engine: &mut Engine<D>, event: Event) -> Answer {
    Answer::of(&engine.event(event))
}

/// A run of some events: the last reply, if there is one.
pub(crate) fn run<D: Disk>(
    alloc: Global,
    engine: &mut Engine<D>,
    events: Vec<Event>,
) -> Result<Option<Answer>, AllocError> {
    let replies = engine.run(alloc, events)?;
    Ok(replies.last().map(Answer::of))
}

/// An operation by itself.
pub(crate) fn writing(op: Op) -> Event {
    Event::Write {
        session: SESSION,
        moment: MOMENT,
        op,
    }
}

/// An operation in a transaction.
pub(crate) fn writing_in(tx: Tx, op: Op) -> Event {
    Event::TxWrite {
        session: SESSION,
        tx,
        moment: MOMENT,
        op,
    }
}

/// The beginning of a transaction.
pub(crate) fn beginning() -> Event {
    Event::Begin {
        session: SESSION,
        id: Uuid::nil(),
    }
}

/// The commit of a transaction.
pub(crate) fn committing(tx: Tx) -> Event {
    Event::CommitAccept {
        session: SESSION,
        tx,
        moment: MOMENT,
    }
}

/// Prepares a write.
pub(crate) fn prepare_write<D: Disk>(engine: &mut Engine<D>, op: Op) -> Result<(), Refusal> {
    engine.prepare(Event::Write {
        session: SESSION,
        moment: MOMENT,
        op,
    })?;
    Ok(())
}

/// Prepares a commit.
pub(crate) fn prepare_commit<D: Disk>(engine: &mut Engine<D>, tx: Tx) -> Result<(), Refusal> {
    engine.prepare(Event::CommitAccept {
        session: SESSION,
        tx,
        moment: MOMENT,
    })?;
    Ok(())
}

/// Finishes what is prepared.
pub(crate) fn finish<D: Disk>(engine: &mut Engine<D>) -> Answer {
    Answer::of(&engine.finish())
}

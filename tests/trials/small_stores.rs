//! Stores on a disk whose keys have names of one letter, below the root, and at most one value each.

use crate::engine_calls::{Answer, SESSION, ask, engine_on, make, writing};
use crate::fault::Fault;
use disk_model::{Disk, MemDisk, Plan, Tear};
use engine::Engine;
use reg_names::{Name, Path};
use reg_tree::{Data, Op, Trees};
use std::alloc::Global;
use std::sync::Arc;
use store_model::{Event, Progress};

/// Every tear.
pub(crate) const TEARS: [Tear; 3] = [Tear::Old, Tear::New, Tear::Torn];

/// A disk in memory on which nothing was written.
pub(crate) fn empty_disk(alloc: Global) -> Result<MemDisk, Fault> {
    Ok(MemDisk::new(alloc, Arc::new(alloc, Plan::new())?))
}

/// What a crash leaves of a disk.
pub(crate) fn left(alloc: Global, disk: &MemDisk, tear: Tear) -> Result<MemDisk, Fault> {
    Ok(disk.crashed(tear, Arc::new(alloc, Plan::new())?)?)
}

/// An engine over a store of `hives` new hives, which is made on a disk, with a session.
pub(crate) fn fresh<D: Disk + Drop>(
    alloc: Global,
    disk: D,
    hives: usize,
) -> Result<Engine<D>, Fault> {
    let mut disk = disk;
    let trees = Trees::new(alloc, hives)?;
    make(alloc, &mut disk, &trees)?;
    let mut engine = engine_on(alloc, disk)?;
    ask(&mut engine, Event::StartSession { session: SESSION });
    Ok(engine)
}

// a key below the root
fn path(alloc: Global, letter: u8) -> Result<Path, Fault> {
    Ok(Path::parse(alloc, &[u16::from(letter)])?)
}

/// The creation of a key below a hive's root.
pub(crate) fn creation(alloc: Global, hive: u8, letter: u8) -> Result<Op, Fault> {
    let path = path(alloc, letter)?;
    Ok(Op::CreateKey { hive, path })
}

/// The setting of the value of such a key to some bytes.
pub(crate) fn setting(alloc: Global, hive: u8, letter: u8, bytes: &[u8]) -> Result<Op, Fault> {
    Ok(Op::SetValue {
        hive,
        path: path(alloc, letter)?,
        name: Name::value(alloc, &[u16::from(b'v')])?,
        kind: 3,
        data: Data::new(alloc, bytes)?,
    })
}

/// Carries out an operation by itself.
pub(crate) fn write<D: Disk>(engine: &mut Engine<D>, op: Op) -> Result<(), Fault> {
    match ask(engine, writing(op)) {
        Answer::Accepted(_) | Answer::Added => Ok(()),
        _ => Err(Fault::Otherwise("no write")),
    }
}

/// A kind of steps.
#[derive(Clone, Copy)]
pub(crate) enum Step {
    /// Of the journal.
    Journal,
    /// Of a hive's flush.
    Flush(u8),
    /// Of a trim.
    Trim,
}

/// Makes one step: how far it came.
pub(crate) fn make_step<D: Disk>(engine: &mut Engine<D>, kind: Step) -> Result<Progress, Fault> {
    let event = match kind {
        Step::Journal => Event::JournalStep,
        Step::Flush(hive) => Event::FlusherStep { hive },
        Step::Trim => Event::TrimStep,
    };
    match ask(engine, event) {
        Answer::Stepped(progress) => Ok(progress),
        _ => Err(Fault::Otherwise("a refused step")),
    }
}

/// Makes so many steps.
pub(crate) fn make_steps<D: Disk>(
    engine: &mut Engine<D>,
    kind: Step,
    count: u32,
) -> Result<(), Fault> {
    for _step in 0..count {
        make_step(engine, kind)?;
    }
    Ok(())
}

// more steps than the batches of a full journal take, and than a flush
const MOST_STEPS: u32 = 10_000;

/// Makes steps until one is idle.
pub(crate) fn settle<D: Disk>(engine: &mut Engine<D>, kind: Step) -> Result<(), Fault> {
    for _step in 0..MOST_STEPS {
        if make_step(engine, kind)? == Progress::Idle {
            return Ok(());
        }
    }
    Err(Fault::Otherwise("steps without end"))
}

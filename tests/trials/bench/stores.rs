//! Stores of a thousand keys a hive, and changes of their values.

use crate::engine_calls::{Answer, SESSION, ask, engine_on, make, writing};
use crate::fault::Fault;
use disk_model::{MemDisk, Plan};
use engine::Engine;
use reg_names::{Name, Path, ValueName};
use reg_tree::{Data, Op, Trees};
use std::alloc::Global;
use std::sync::Arc;
use store_model::{Event, Progress};

// the keys of a hive
const KEYS: u32 = 1_000;

// more steps than a journal takes that is full of the greatest bodies, and than a flush takes
const MOST_STEPS: u32 = 1_000;

/// The path of the key of a number, counted round.
pub(crate) fn path_of(alloc: Global, number: u32) -> Result<Path, Fault> {
    let mut rest = number % KEYS;
    let mut units = [0u16; 3];
    for unit in &mut units {
        *unit = u16::from(b'0').saturating_add((rest % 10) as u16);
        rest /= 10;
    }
    Ok(Path::parse(alloc, &units)?)
}

/// The name of the value of each key.
pub(crate) fn name_of(alloc: Global) -> Result<ValueName, Fault> {
    Ok(Name::value(alloc, &[u16::from(b'v')])?)
}

/// Sets the value of the key of a number, by itself.
pub(crate) fn set(
    engine: &mut Engine<MemDisk>,
    alloc: Global,
    hive: u8,
    number: u32,
    data: &Data,
) -> Result<(), Fault> {
    change(engine, setting(alloc, hive, number, data)?)
}

/// The operation that sets the value of the key of a number.
pub(crate) fn setting(alloc: Global, hive: u8, number: u32, data: &Data) -> Result<Op, Fault> {
    Ok(Op::SetValue {
        hive,
        path: path_of(alloc, number)?,
        name: name_of(alloc)?,
        kind: 3,
        data: data.clone()?,
    })
}

/// Data of `bytes` bytes.
pub(crate) fn data_of(alloc: Global, bytes: u32) -> Result<Data, Fault> {
    let zeros = vec![in alloc; 0u8; bytes as usize]?;
    Ok(Data::from_vec(zeros)?)
}

// carries out an operation by itself
fn change(engine: &mut Engine<MemDisk>, op: Op) -> Result<(), Fault> {
    match ask(engine, writing(op)) {
        Answer::Accepted(_) => Ok(()),
        _ => Err(Fault::Otherwise("no write")),
    }
}

// a kind of steps
#[derive(Clone, Copy)]
enum Step {
    Journal,
    Flush(u8),
    Trim,
}

// makes steps of this kind until one is idle
fn settle(engine: &mut Engine<MemDisk>, step: Step) -> Result<(), Fault> {
    for _step in 0..MOST_STEPS {
        let event = match step {
            Step::Journal => Event::JournalStep,
            Step::Flush(hive) => Event::FlusherStep { hive },
            Step::Trim => Event::TrimStep,
        };
        match ask(engine, event) {
            Answer::Stepped(Progress::Idle) => return Ok(()),
            Answer::Stepped(_) => {}
            _ => return Err(Fault::Otherwise("a refused step")),
        }
    }
    Err(Fault::Otherwise("more steps"))
}

/// Makes all changes durable.
pub(crate) fn journal_all(engine: &mut Engine<MemDisk>) -> Result<(), Fault> {
    settle(engine, Step::Journal)
}

/// Makes all changes durable, flushes the hives and trims the journal.
pub(crate) fn settle_all(engine: &mut Engine<MemDisk>, hives: u8) -> Result<(), Fault> {
    journal_all(engine)?;
    for hive in 0..hives {
        settle(engine, Step::Flush(hive))?;
    }
    settle(engine, Step::Trim)
}

/// A store of `hives` hives, each with a thousand keys, which its files have; the journal decodes to no change.
pub(crate) fn filled(alloc: Global, hives: u8) -> Result<Engine<MemDisk>, Fault> {
    let mut disk = MemDisk::new(alloc, Arc::new(alloc, Plan::new())?);
    let trees = Trees::new(alloc, usize::from(hives))?;
    make(alloc, &mut disk, &trees)?;
    let mut engine = engine_on(alloc, disk)?;
    fill(alloc, &mut engine, hives)?;
    Ok(engine)
}

// opens a session and creates the keys
fn fill(alloc: Global, engine: &mut Engine<MemDisk>, hives: u8) -> Result<(), Fault> {
    ask(engine, Event::StartSession { session: SESSION });
    for hive in 0..hives {
        for number in 0..KEYS {
            let path = path_of(alloc, number)?;
            change(engine, Op::CreateKey { hive, path })?;
        }
    }
    settle_all(engine, hives)
}

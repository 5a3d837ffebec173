//! Stores on a disk in memory, and changes of them.

use crate::events::calls::{MOMENT, SESSION, ask, begin, make, open, repair};
use disk_model::{MemDisk, Plan, Progress, Tear};
use engine::Engine;
use recovery::Opened;
use refusals::Refusal;
use reg_names::Path;
use reg_tree::{Op, Tree, Trees};
use std::alloc::Global;
use std::sync::Arc;
use store_model::Event;
use uuid::Uuid;

/// Every tear.
pub const TEARS: [Tear; 3] = [Tear::Old, Tear::New, Tear::Torn];

// more steps than any of these repairs takes
const MANY: u32 = 64;

/// A disk with a store of `hives` hives, each with a new tree at number 0.
pub fn created(alloc: Global, hives: usize) -> Result<MemDisk, Refusal> {
    let mut disk = MemDisk::new(alloc, Arc::new(alloc, Plan::new())?);
    let trees = Trees::new(alloc, hives)?;
    make(alloc, &mut disk, Uuid::nil(), &trees)?;
    Ok(disk)
}

/// The store that is on a disk, repaired.
pub fn opened(alloc: Global, disk: MemDisk) -> Result<Opened<MemDisk>, Refusal> {
    match open(alloc, disk) {
        Ok(mut store) => match repair_all(&mut store) {
            Ok(()) => Ok(store),
            Err(why) => Err(why),
        },
        Err((why, _)) => Err(why),
    }
}

/// Repairs a store as far as the device goes.
pub fn repair_all(store: &mut Opened<MemDisk>) -> Result<(), Refusal> {
    for _step in 0..MANY {
        if repair(store)? == Progress::Idle {
            return Ok(());
        }
    }
    Err(Refusal::Faulted)
}

/// An engine over the store that is on a disk, with a session.
pub fn engine(alloc: Global, disk: MemDisk) -> Result<Engine<MemDisk>, Refusal> {
    match begin(alloc, opened(alloc, disk)?) {
        Ok(mut engine) => {
            ask(&mut engine, Event::StartSession { session: SESSION });
            Ok(engine)
        }
        Err((why, _)) => Err(why),
    }
}

/// An engine over a new store of `hives` hives, with a session.
pub fn fresh(alloc: Global, hives: usize) -> Result<Engine<MemDisk>, Refusal> {
    match created(alloc, hives) {
        Ok(disk) => engine(alloc, disk),
        Err(why) => Err(why),
    }
}

// a key below the root, of one letter
fn path(alloc: Global, letter: u8) -> Result<Path, Refusal> {
    Path::parse(alloc, &[u16::from(letter)])
}

/// The creation of a key below the root of a hive, of one letter.
pub fn creation(alloc: Global, hive: u8, letter: u8) -> Result<Op, Refusal> {
    let path = path(alloc, letter)?;
    Ok(Op::CreateKey { hive, path })
}

/// The same, as a write alone.
pub fn write_of(alloc: Global, hive: u8, letter: u8) -> Result<Event, Refusal> {
    Ok(Event::Write {
        session: SESSION,
        moment: MOMENT,
        op: creation(alloc, hive, letter)?,
    })
}

/// Which of the letters A to E are keys below the root of a hive: `-` for each that isn't.
pub fn keys(alloc: Global, trees: &Trees, hive: u8) -> Result<[u8; 5], Refusal> {
    let mut letters = *b"ABCDE";
    if let Some(tree) = trees.tree(hive) {
        for letter in &mut letters {
            if !has(alloc, tree, *letter)? {
                *letter = b'-';
            }
        }
    }
    Ok(letters)
}

// whether a letter is a key below the root of a tree
fn has(alloc: Global, tree: &Tree, letter: u8) -> Result<bool, Refusal> {
    let path = path(alloc, letter)?;
    Ok(tree.query_info(&path).is_ok())
}

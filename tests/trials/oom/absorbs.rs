//! Changes that a hive absorbs: if that is refused memory, it is as before. So it is made again, and the hive's file
//! gets the same bytes as one to which nothing was refused.
use crate::bench::flushes::{change, flush};
use crate::fault::Fault;
use crate::oom::operations::{operations, small_tree};
use crate::oom::{expect_no_memory, roomy_disk};
use change_codec::EncodedChange;
use disk_model::{Disk, MemDisk};
use hive_flush::HiveFile;
use reg_tree::Tree;
use std::alloc::Global;
use uuid::Uuid;

// hive 0's primary file
const PRIMARY: u32 = 1;

/// Absorbs changes twice, each time in a hive of its own: whether one of them was refused memory.
pub(crate) fn run(alloc: Global) -> Result<bool, Fault> {
    let tree = small_tree(alloc)?;
    let changes = changes(alloc)?;
    let mut one = roomy_disk(alloc)?;
    let mut other = roomy_disk(alloc)?;
    let first = change_hive(alloc, &mut one, &tree, &changes)?;
    let second = change_hive(alloc, &mut other, &tree, &changes)?;
    if primary(alloc, &mut one)? != primary(alloc, &mut other)? {
        return Err(Fault::Otherwise("files of other bytes"));
    }
    Ok(first || second)
}

// a change for each operation
fn changes(alloc: Global) -> Result<Vec<EncodedChange>, Fault> {
    let mut changes = Vec::new(alloc);
    for op in operations(alloc)? {
        changes.push(change(alloc, op)?)?;
    }
    Ok(changes)
}

// makes a hive, changes it and flushes it: whether it was refused memory for the changes
fn change_hive(
    alloc: Global,
    disk: &mut MemDisk,
    tree: &Tree,
    changes: &[EncodedChange],
) -> Result<bool, Fault> {
    HiveFile::create(alloc, disk, 0, Uuid::nil(), tree)?;
    let mut file = HiveFile::open(alloc, disk, 0, Uuid::nil())?;
    let was_refused = absorb(alloc, &mut file, changes)?;
    flush(disk, &mut file)?;
    Ok(was_refused)
}

// absorbs changes, again if memory is refused: whether it was
fn absorb(alloc: Global, file: &mut HiveFile, changes: &[EncodedChange]) -> Result<bool, Fault> {
    if absorb_once(alloc, file, changes)? {
        Ok(false)
    } else if absorb_once(alloc, file, changes)? {
        Ok(true)
    } else {
        Err(Fault::Twice)
    }
}

// absorbs the first changes of a hive: whether it did; if not, memory was refused
fn absorb_once(
    alloc: Global,
    file: &mut HiveFile,
    changes: &[EncodedChange],
) -> Result<bool, Fault> {
    if !file.is_at_rest() || file.number() != 0 {
        return Err(Fault::Otherwise("a hive that is busy"));
    }
    match file.absorb(alloc, changes, &[], changes.len() as u64) {
        Ok(()) => Ok(true),
        Err(refusal) => {
            expect_no_memory(refusal)?;
            Ok(false)
        }
    }
}

// the bytes of the primary file
fn primary(alloc: Global, disk: &mut MemDisk) -> Result<Vec<u8>, Fault> {
    let Ok(len) = usize::try_from(disk.len(PRIMARY)?) else {
        return Err(Fault::Otherwise("a longer file"));
    };
    let mut bytes = vec![in alloc; 0u8; len]?;
    if disk.read(PRIMARY, 0, &mut bytes)? != len {
        return Err(Fault::Otherwise("a shorter file"));
    }
    Ok(bytes)
}

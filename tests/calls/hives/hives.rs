//! A hive on a disk in memory.

use base_block::{BaseBlock, MINOR_VERSION, SequenceNumber};
use change_codec::EncodedChange;
use disk_model::{Disk, MemDisk, Plan, Progress, Tear};
use hive_emit::{Emitted, emit};
use hive_flush::HiveFile;
use refusals::Refusal;
use reg_names::{Name, Path};
use reg_tree::{Element, Tree};
use std::alloc::{AllocError, Global};
use std::sync::Arc;
use uuid::Uuid;

/// The primary file of hive 0.
pub const PRIMARY: u32 = 1;

/// Its log.
pub const LOG: u32 = 2;

/// More steps than any of these flushes takes.
const MANY: u32 = 64;

/// A disk with hive 0 of a store: a clean primary file, with these sequence numbers, of a new tree at number 0.
pub fn fresh(alloc: Global, number: u32) -> Result<MemDisk, Refusal> {
    let tree = Tree::fresh(alloc)?;
    let Emitted { image, root } = emit(alloc, &tree, 4_096)?;
    let bins = image.into_bytes();
    let Ok(size) = u32::try_from(bins.len()) else {
        return Err(Refusal::TooLarge);
    };
    let block = BaseBlock::of_primary(
        SequenceNumber(number),
        MINOR_VERSION,
        root,
        size,
        Uuid::nil(),
    );
    let mut disk = MemDisk::new(alloc, Arc::new(alloc, Plan::new())?);
    disk.write_at(PRIMARY, 0, &block.write())?;
    disk.write_at(PRIMARY, 4_096, &bins)?;
    disk.sync(PRIMARY)?;
    Ok(disk)
}

/// What a crash leaves of a disk, with a plan of its own.
pub fn left(alloc: Global, disk: &MemDisk, tear: Tear) -> Result<MemDisk, AllocError> {
    disk.crashed(tear, Arc::new(alloc, Plan::new())?)
}

/// What a crash leaves of a disk, and the plan by which calls on it fail.
pub fn planned(
    alloc: Global,
    disk: &MemDisk,
    tear: Tear,
) -> Result<(MemDisk, Arc<Plan>), AllocError> {
    let plan = Arc::new(alloc, Plan::new())?;
    let disk = disk.crashed(tear, Arc::try_clone(&plan)?)?;
    Ok((disk, plan))
}

/// Hive 0 of the store.
pub fn open(alloc: Global, disk: &mut MemDisk) -> Result<HiveFile, Refusal> {
    HiveFile::open(alloc, disk, 0, Uuid::nil())
}

/// Hive 0 of the store, once it is repaired.
pub fn open_whole(alloc: Global, disk: &mut MemDisk) -> Result<HiveFile, Refusal> {
    let mut file = open(alloc, disk)?;
    repaired(&mut file, disk)?;
    Ok(file)
}

/// Repairs a hive: how many steps it took.
pub fn repaired(file: &mut HiveFile, disk: &mut MemDisk) -> Result<u32, Refusal> {
    repair_on(file, disk, 0, MANY)
}

// the same after this many steps, with at most this many more
#[cycle(repairs)]
fn repair_on(
    file: &mut HiveFile,
    disk: &mut MemDisk,
    made: u32,
    most: u32,
) -> Result<u32, Refusal> {
    if most == 0 {
        return Err(Refusal::Faulted);
    }
    match file.repair_step(disk)? {
        Progress::Idle => Ok(made),
        Progress::Done => Ok(made.saturating_add(1)),
        Progress::More => repair_on(file, disk, made.saturating_add(1), most - 1),
    }
}

/// Absorbs a change under a number and flushes it: how many steps that took.
pub fn flushed(
    alloc: Global,
    file: &mut HiveFile,
    disk: &mut MemDisk,
    element: Element,
    number: u64,
) -> Result<u32, Refusal> {
    if !file.is_at_rest() || number < file.number() {
        return Err(Refusal::Conflict);
    }
    if element.text_len() >= u64::from(u32::MAX) {
        return Err(Refusal::TooLarge);
    }
    let mut changes = Vec::new(alloc);
    changes.push(EncodedChange::of(alloc, &element)?)?;
    match file.absorb(alloc, &changes, &[], number) {
        Ok(()) => flush_on(file, disk, 0, MANY),
        Err(why) => Err(why),
    }
}

// flushes on after this many steps, with at most this many more
#[cycle(flushing)]
fn flush_on(file: &mut HiveFile, disk: &mut MemDisk, made: u32, most: u32) -> Result<u32, Refusal> {
    if most == 0 {
        return Err(Refusal::Faulted);
    }
    match file.step(disk) {
        Ok(Progress::Done) => Ok(made.saturating_add(1)),
        Ok(_) => flush_on(file, disk, made.saturating_add(1), most - 1),
        Err(why) => Err(why),
    }
}

/// Whether the tree in memory has a key below the root, of one letter.
pub fn has(alloc: Global, file: &HiveFile, letter: u8) -> Result<bool, Refusal> {
    let path = Path::parse(alloc, &[u16::from(letter)])?;
    Ok(file.tree().query_info(&path).is_ok())
}

/// The byte at an index of a value of the root, of one letter; 0 if it isn't there.
pub fn byte_of(alloc: Global, tree: &Tree, letter: u8, place: usize) -> Result<u8, Refusal> {
    let path = Path::root(alloc)?;
    let name = Name::value(alloc, &[u16::from(letter)])?;
    let value = tree.get_value(&path, name.name())?;
    Ok(value.data.bytes().get(place).copied().unwrap_or(0))
}

/// The bytes of a file.
pub fn bytes_of(alloc: Global, disk: &mut MemDisk, file: u32) -> Result<Vec<u8>, Refusal> {
    let len = disk.len(file)?;
    let mut bytes = vec![in alloc; 0u8; len as usize]?;
    disk.read(file, 0, &mut bytes)?;
    Ok(bytes)
}

//! Hives that are made.
use crate::hives::changes::creation;
use crate::hives::hives::{LOG, PRIMARY, flushed, fresh, has, open};
use disk_model::{Disk, MemDisk};
use hive_flush::HiveFile;
use refusals::Refusal;
use reg_tree::Tree;
use std::alloc::Global;
use std::test::Fail;
use uuid::Uuid;

// a disk on which hive 0 of the store is made in place of another one, whose log is left
fn made(alloc: Global) -> Result<MemDisk, Refusal> {
    let mut disk = fresh(alloc, 3)?;
    let mut file = open(alloc, &mut disk)?;
    let element = creation(alloc, b'K')?;
    flushed(alloc, &mut file, &mut disk, element, 5)?;
    let tree = Tree::fresh(alloc)?;
    match HiveFile::create(alloc, &mut disk, 0, Uuid::nil(), &tree) {
        Ok(()) => Ok(disk),
        Err(why) => Err(why),
    }
}

#[test]
fn a_hive_is_made_over_another_one(rt: HostRuntime) -> Result<(), Fail> {
    let alloc = rt.alloc();
    let mut disk = made(alloc)?;
    assert_eq!(&rt; disk.len(LOG), Ok(0));
    assert_eq!(&rt; disk.len(PRIMARY), Ok(8_192));
    let file = open(alloc, &mut disk)?;
    assert_eq!(&rt; (file.applied(), has(alloc, &file, b'K')?), (0, false));
    Ok(())
}

#[test]
fn a_hive_that_was_made_is_flushed(rt: HostRuntime) -> Result<(), Fail> {
    let alloc = rt.alloc();
    let mut disk = made(alloc)?;
    let mut file = open(alloc, &mut disk)?;
    let element = creation(alloc, b'L')?;
    flushed(alloc, &mut file, &mut disk, element, 1)?;
    let file = open(alloc, &mut disk)?;
    assert_eq!(&rt; (file.applied(), has(alloc, &file, b'L')?), (1, true));
    Ok(())
}

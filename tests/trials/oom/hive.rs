//! The making of a hive's files: if it is refused memory, no file changes.
use crate::fault::Fault;
use crate::oom::{expect_no_memory, refused_again, roomy_disk};
use disk_model::{Disk, MemDisk};
use hive_flush::HiveFile;
use refusals::Refusal;
use reg_tree::Tree;
use std::alloc::Global;
use uuid::Uuid;

// hive 0's primary file, and its log
const PRIMARY: u32 = 1;

const LOG: u32 = 2;

// a base block, and the one bin of an empty tree
const BYTES: u64 = 8_192;

/// Makes a hive: whether that was refused memory.
pub(crate) fn run(alloc: Global) -> Result<bool, Fault> {
    let tree = Tree::fresh(alloc)?;
    let mut disk = roomy_disk(alloc)?;
    let was_refused = make(alloc, &mut disk, &tree)?;
    expect_lengths(&mut disk, BYTES)?;
    Ok(was_refused)
}

fn make(alloc: Global, disk: &mut MemDisk, tree: &Tree) -> Result<bool, Fault> {
    match create(alloc, disk, tree) {
        Ok(()) => Ok(false),
        Err(refusal) => {
            expect_no_memory(refusal)?;
            expect_lengths(disk, 0)?;
            match create(alloc, disk, tree) {
                Ok(()) => Ok(true),
                Err(refusal) => Err(refused_again(refusal)),
            }
        }
    }
}

fn create(alloc: Global, disk: &mut MemDisk, tree: &Tree) -> Result<(), Refusal> {
    HiveFile::create(alloc, disk, 0, Uuid::nil(), tree)
}

// the primary file has so many bytes, and the log none
fn expect_lengths(disk: &mut MemDisk, primary: u64) -> Result<(), Fault> {
    if disk.len(PRIMARY)? == primary && disk.len(LOG)? == 0 {
        Ok(())
    } else {
        Err(Fault::Otherwise("files of other lengths"))
    }
}

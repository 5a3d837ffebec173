//! The store in a folder, on a disk that counts its syncs.

use crate::counted_disk::CountedDisk;
use crate::trouble::Trouble;
use disk_model::Disk;
use engine::Engine;
use file_disk::{FileDisk, Unknown};
use refusals::Refusal;
use reg_tree::Trees;
use std::alloc::Global;
use std::fs::{self, File};
use std::io::ErrorKind;
use std::rt::Files;
use std::sync::atomic::AtomicU64;
use store_driver::open_engine;
use uuid::Uuid;

/// The hives of a store.
pub const HIVES: u8 = 2;

// the number of the journal's file
const JOURNAL: u32 = 0;

/// The folder, which is made if it is missing, as a disk that no other program has.
pub fn held_folder<'a, R: Files<File = File>>(
    rt: &'a R,
    alloc: Global,
    folder: &str,
    syncs: &'a AtomicU64,
) -> Result<CountedDisk<'a, FileDisk<&'a R, Unknown>>, Trouble> {
    if let Err(error) = fs::create_dir(rt, folder) {
        if error.kind() != ErrorKind::AlreadyExists {
            return Err(Trouble::from(error));
        }
    }
    let disk = FileDisk::open_locked(rt, alloc, folder)?;
    Ok(CountedDisk::new(disk, syncs))
}

/// An engine over the store that is on a disk. If there is none, one of empty hives is made first, if that is wanted.
pub fn opened_store<D: Disk + Drop>(
    alloc: Global,
    disk: D,
    makes: bool,
) -> Result<Engine<D>, Trouble> {
    let mut disk = disk;
    if makes && disk.len(JOURNAL)? == 0 {
        let trees = Trees::new(alloc, usize::from(HIVES))?;
        recovery::create(alloc, &mut disk, Uuid::nil(), &trees)?;
    }
    match open_engine(alloc, disk) {
        Ok((engine, _number)) => Ok(engine),
        Err((why, _disk)) => Err(Trouble::Refused(why)),
    }
}

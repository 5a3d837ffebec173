//! Openings of a small store in whose files one byte is another one.
//!
//! Each of them ends. A store that opens is repaired; a refusal tells of damage in files, and hands the disk back as it
//! was.
use crate::engine_calls::{open, repair_all};
use crate::fault::Fault;
use crate::small_stores::{
    Step, creation, empty_disk, fresh, left, make_steps, setting, settle, write,
};
use disk_model::{Disk, MemDisk, Tear};
use engine::Engine;
use refusals::Refusal;
use std::alloc::Global;

// the files of a store of two hives: the journal, and for each hive a primary file and a log
const FILES: u32 = 5;

// the log of hive 0, which is clean, and the primary file of hive 1, which isn't and whose log has each page in use: no
// byte of them refuses an opening
const UNREAD: [u32; 2] = [2, 3];

// the bytes that are put in a byte's place
const SPOILS: [u8; 2] = [0x00, 0xff];

// the calls up to the sync of the raised sector: the log and its sync, the sector and its sync
const RAISED: u32 = 4;

/// Opens the store with each byte of each file spoiled in turn. Prints how many of these openings were refused.
pub(crate) fn run<R: Print>(rt: &R, alloc: Global) -> Result<(), Fault> {
    let mut disk = store(alloc)?;
    for file in 0..FILES {
        let (opened, refused) = each_byte(rt, alloc, &mut disk, file)?;
        println!(rt; "file {file}: {opened} opened, {refused} refused")?;
        let is_read = !UNREAD.contains(&file);
        if opened == 0 || (refused > 0) != is_read {
            return Err(Fault::Otherwise("another number of refusals"));
        }
    }
    Ok(())
}

// a disk with a store whose journal has changes of both hives: hive 0 is clean, beside the log of its flush, and hive 1
// unclean
fn store(alloc: Global) -> Result<MemDisk, Fault> {
    let mut engine = fresh(alloc, empty_disk(alloc)?, 2)?;
    change(alloc, &mut engine)?;
    settle(&mut engine, Step::Journal)?;
    settle(&mut engine, Step::Flush(0))?;
    make_steps(&mut engine, Step::Flush(1), RAISED)?;
    left(alloc, engine.disk(), Tear::Old)
}

fn change(alloc: Global, engine: &mut Engine<MemDisk>) -> Result<(), Fault> {
    for hive in 0..2 {
        write(engine, creation(alloc, hive, b'K')?)?;
        write(engine, setting(alloc, hive, b'K', b"the bytes of a cell")?)?;
    }
    Ok(())
}

// opens the store with each byte of a file spoiled in turn: how many openings succeed, and how many are refused
fn each_byte<R: Print>(
    rt: &R,
    alloc: Global,
    disk: &mut MemDisk,
    file: u32,
) -> Result<(u64, u64), Fault> {
    let (mut opened, mut refused) = (0u64, 0u64);
    for (place, old) in bytes_of(alloc, disk, file)?.iter().enumerate() {
        for byte in SPOILS {
            if byte == *old {
                continue;
            }
            match opens(alloc, disk, file, place as u64, byte) {
                Ok(true) => opened = opened.saturating_add(1),
                Ok(false) => refused = refused.saturating_add(1),
                Err(fault) => {
                    println!(rt; "file {file}, byte {place}, {byte:#04x}: {}", fault.text())?;
                    return Err(fault);
                }
            }
        }
    }
    Ok((opened, refused))
}

// whether the store opens with another byte at a place of a file
fn opens(alloc: Global, disk: &MemDisk, file: u32, place: u64, byte: u8) -> Result<bool, Fault> {
    match open(alloc, spoiled(alloc, disk, file, place, byte)?) {
        Ok(mut store) => {
            repair_all(&mut store)?;
            Ok(true)
        }
        Err((why, mut back)) => {
            expect_damage(why)?;
            let mut before = spoiled(alloc, disk, file, place, byte)?;
            expect_equal(alloc, &mut before, &mut back)?;
            Ok(false)
        }
    }
}

// the disk with another byte at a place of a file
fn spoiled(
    alloc: Global,
    disk: &MemDisk,
    file: u32,
    place: u64,
    byte: u8,
) -> Result<MemDisk, Fault> {
    let mut disk = left(alloc, disk, Tear::New)?;
    disk.write_at(file, place, &[byte])?;
    disk.sync(file)?;
    Ok(disk)
}

// a refusal has to tell of damage in files
fn expect_damage(why: Refusal) -> Result<(), Fault> {
    match why {
        Refusal::HiveDamaged { .. } | Refusal::JournalDamaged | Refusal::Unsupported => Ok(()),
        _ => Err(Fault::Otherwise("a refusal that tells of no damage")),
    }
}

// two disks have to have the same files
fn expect_equal(alloc: Global, before: &mut MemDisk, back: &mut MemDisk) -> Result<(), Fault> {
    for file in 0..FILES {
        if bytes_of(alloc, before, file)? != bytes_of(alloc, back, file)? {
            return Err(Fault::Otherwise("a refused opening changed a file"));
        }
    }
    Ok(())
}

// the bytes of a file
fn bytes_of(alloc: Global, disk: &mut MemDisk, file: u32) -> Result<Vec<u8>, Fault> {
    let len = disk.len(file)?;
    let mut bytes = vec![in alloc; 0u8; len as usize]?;
    if disk.read(file, 0, &mut bytes)? == bytes.len() {
        Ok(bytes)
    } else {
        Err(Fault::Otherwise("a short read"))
    }
}

//! How long it takes to open a store whose journal is full.
use crate::bench::now;
use crate::bench::stores::{data_of, filled, journal_all, set};
use crate::engine_calls::open;
use crate::fault::Fault;
use disk_model::{Disk, MemDisk, Plan, Tear};
use engine::Engine;
use std::alloc::Global;
use std::sync::Arc;
use std::time::CpuClock;

// the hives of the store
const HIVES: u8 = 16;

// the journal's file
const JOURNAL: u32 = 0;

/// Times an opening of a store whose journal decodes to `changes` changes of values of `bytes` bytes, round the hives.
/// Prints the time and the bytes of the journal.
pub(crate) fn time<R: Print + CpuClock>(
    rt: &R,
    alloc: Global,
    changes: u32,
    bytes: u32,
) -> Result<(), Fault> {
    let mut disk = journaled(alloc, changes, bytes)?;
    let length = disk.len(JOURNAL)?;
    let took = opened_in(rt, alloc, disk)?;
    println!(rt; "{took} {length}")?;
    Ok(())
}

// the microseconds in which a store is opened
fn opened_in<R: CpuClock>(rt: &R, alloc: Global, disk: MemDisk) -> Result<u128, Fault> {
    let start = now(rt)?;
    let opened = open(alloc, disk);
    let end = now(rt)?;
    match opened {
        Ok(_) => Ok(end.saturating_sub(start)),
        Err(_) => Err(Fault::Otherwise("no store")),
    }
}

// what a crash leaves of a store whose journal decodes to `changes` changes
fn journaled(alloc: Global, changes: u32, bytes: u32) -> Result<MemDisk, Fault> {
    let mut engine = filled(alloc, HIVES)?;
    spell(alloc, &mut engine, changes, bytes)?;
    let plan = Arc::new(alloc, Plan::new())?;
    Ok(engine.disk().crashed(Tear::Old, plan)?)
}

// makes `changes` changes, and journals them
fn spell(
    alloc: Global,
    engine: &mut Engine<MemDisk>,
    changes: u32,
    bytes: u32,
) -> Result<(), Fault> {
    let data = data_of(alloc, bytes)?;
    for number in 0..changes {
        let hive = (number % 16) as u8;
        set(engine, alloc, hive, number / 16, &data)?;
    }
    journal_all(engine)
}

//! Calls that may be refused memory.
//!
//! `tools/failalloc.py each` runs them once for each allocation, which is refused, and once for each with all later ones
//! refused too. A call that is refused has to answer want of memory and nothing else, and has to leave all as it was:
//! that is compared, and it is made again. What is compared is looked at without memory (`pictures`), but for claims
//! (`claims`): they are tried only after a call was refused, so no trial of one hides a refusal.
mod absorbs;
mod asks;
mod cells;
mod claims;
mod digest;
mod edits;
mod engine_driver;
mod engine_events;
mod engine_life;
mod hive;
mod loads;
mod opening;
mod operations;
mod pictures;
mod pure_calls;
mod registry_caller;
mod registry_calls;
mod registry_life;
mod repairs;
mod watched_disk;
mod without_memory;

use crate::fault::Fault;
use crate::oom::registry_caller::Patience;
use crate::oom::watched_disk::{DiskWatch, WatchedDisk};
use disk_model::{MemDisk, Plan};
use engine::Engine;
use refusals::Refusal;
use std::alloc::Global;
use std::sync::{Arc, Wait};

// the files of a store of two hives and that of outcomes, and how many bytes longer each gets in how many calls
const FILES: u32 = 7;

const ROOM: usize = 262_144;

const CALLS: usize = 512;

/// Makes all calls: whether one was refused memory.
pub(crate) fn run<R: Wait>(rt: &R, alloc: Global) -> Result<bool, Fault> {
    let of_cells = cells::run(alloc)?;
    let of_edits = edits::run(alloc)?;
    let of_absorbs = absorbs::run(alloc)?;
    let of_hive = hive::run(alloc)?;
    let of_engine = engine_life::run(alloc)?;
    let of_events = engine_events::run(alloc)?;
    let of_loads = loads::run(alloc)?;
    let of_repairs = repairs::run(alloc)?;
    let of_registry = registry_life::run(rt, alloc, Patience::None)?;
    pure_calls::run(alloc)?;
    Ok(
        of_cells
            || of_edits
            || of_absorbs
            || of_hive
            || of_engine
            || of_events
            || of_loads
            || of_repairs
            || of_registry,
    )
}

/// Makes the calls of a registry that try again until there is memory: whether another was refused memory.
pub(crate) fn run_patiently<R: Wait>(rt: &R, alloc: Global) -> Result<bool, Fault> {
    registry_life::run(rt, alloc, Patience::Endless)
}

/// The disk of each store: one in memory that tells what is done to it.
pub(crate) type OomDisk = WatchedDisk<MemDisk>;

/// An engine, and what its disk tells.
#[derive(Drop)]
pub(crate) struct WatchedEngine {
    /// The engine.
    pub engine: Engine<OomDisk>,
    /// What its disk tells.
    pub watch: Arc<DiskWatch>,
}

// a disk on which the calls of such a store take no memory
fn roomy_disk(alloc: Global) -> Result<MemDisk, Fault> {
    let mut disk = MemDisk::new(alloc, Arc::new(alloc, Plan::new())?);
    disk.room(FILES, ROOM, CALLS)?;
    Ok(disk)
}

// a refusal has to be want of memory
fn expect_no_memory(refusal: Refusal) -> Result<(), Fault> {
    match refusal {
        Refusal::NoMemory => Ok(()),
        _ => Err(Fault::Otherwise("another refusal than want of memory")),
    }
}

// why a call is refused that was made again
fn refused_again(refusal: Refusal) -> Fault {
    match refusal {
        Refusal::NoMemory => Fault::Twice,
        _ => Fault::Otherwise("a refusal of a call that was made again"),
    }
}

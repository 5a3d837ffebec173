//! The opening of a store whose flush was cut off: if it is refused memory, each file has the bytes that it had. The
//! steps of its repair take no memory, the first among them.
use crate::engine_calls::{Answer, SESSION};
use crate::fault::Fault;
use crate::oom::asks::{Ask, Change};
use crate::oom::digest::digest_of;
use crate::oom::engine_driver::{EngineDriver, How};
use crate::oom::opening::{begun, made, opened};
use crate::oom::watched_disk::{DiskWatch, WatchedDisk};
use crate::oom::{CALLS, FILES, OomDisk, ROOM};
use disk_model::{MemDisk, Plan, Tear};
use recovery::Opened;
use std::alloc::Global;
use std::sync::Arc;
use store_model::Progress;

// the steps of a flush up to a write of the primary file: it isn't clean then
const CUT_OFF: u32 = 5;

// more steps than a repair takes
const MANY: u32 = 32;

/// Opens and repairs such a store: whether a call was refused memory.
pub(crate) fn run(alloc: Global) -> Result<bool, Fault> {
    let mut was_refused = false;
    let engine = made(alloc, &mut was_refused)?;
    let mut driver = EngineDriver::new(alloc, engine, was_refused);
    cut_off(alloc, &mut driver)?;
    was_refused = driver.was_refused;
    let watch = DiskWatch::new(alloc)?;
    let seen = Arc::try_clone(&watch)?;
    let left = crashed(alloc, driver.into_disk().into_inner())?;
    let mut store = opened(alloc, WatchedDisk::new(left, watch), &mut was_refused)?;
    repair(&mut store)?;
    begun(alloc, store, &seen, &mut was_refused)?;
    Ok(was_refused)
}

// a change that is durable, and a flush of it that has begun to write the primary file
fn cut_off(alloc: Global, driver: &mut EngineDriver) -> Result<(), Fault> {
    driver.asked(alloc, How::Event, Ask::Start(SESSION))?;
    let create = Ask::Write(Change::Create("A"));
    if driver.asked(alloc, How::Event, create)? != Answer::Accepted(1) {
        return Err(Fault::Otherwise("no write"));
    }
    driver.begin_batch(alloc)?;
    driver.end_journaling()?;
    driver.begin_flush(alloc)?;
    for _step in 1..CUT_OFF {
        let answer = driver.asked_without_memory(alloc, Ask::Flush)?;
        if answer != Answer::Stepped(Progress::More) {
            return Err(Fault::Otherwise("another step of a flush"));
        }
    }
    Ok(())
}

// the files as a crash leaves them that keeps what was written, on a disk with room
fn crashed(alloc: Global, disk: MemDisk) -> Result<MemDisk, Fault> {
    let plan = Arc::new(alloc, Plan::new())?;
    let mut left = disk.crashed(Tear::New, plan)?;
    left.room(FILES, ROOM, CALLS)?;
    Ok(left)
}

// repairs a store: its number and trees stay
fn repair(store: &mut Opened<OomDisk>) -> Result<(), Fault> {
    let trees = digest_of(store.trees());
    if store.is_whole() || store.number() != 1 {
        return Err(Fault::Otherwise("a store without a repair"));
    }
    repair_to_end(store)?;
    if store.is_whole() && store.number() == 1 && digest_of(store.trees()) == trees {
        Ok(())
    } else {
        Err(Fault::Otherwise("a repair that has changed something"))
    }
}

fn repair_to_end(store: &mut Opened<OomDisk>) -> Result<(), Fault> {
    for _step in 0..MANY {
        match store.repair_step() {
            Ok(Progress::Done) => return Ok(()),
            Ok(Progress::More) => {}
            _ => return Err(Fault::Otherwise("another step of a repair")),
        }
    }
    Err(Fault::Otherwise("more steps of a repair"))
}

//! Openings in which one call of the device fails, of a store whose hives were being flushed when the power went.

use crate::events::calls::{ask_all, left, open, planned};
use crate::events::stores::{TEARS, fresh, keys, opened, repair_all, write_of};
use disk_model::{MemDisk, Tear};
use refusals::Refusal;
use std::alloc::Global;
use std::test::Fail;
use store_model::Event;

// a number, and the keys of both hives
type OpenedStore = (u64, [u8; 5], [u8; 5]);

// a change of each hive and their batch, after which both are being flushed: hive 0's raised sector is synced, and
// hive 1's is written
fn flushed_halfway(alloc: Global) -> Result<Vec<Event>, Refusal> {
    let mut events = Vec::new(alloc);
    events.push(write_of(alloc, 0, b'A')?)?;
    events.push(write_of(alloc, 1, b'B')?)?;
    for _step in 0..4 {
        events.push(Event::JournalStep)?;
    }
    for _step in 0..4 {
        events.push(Event::FlusherStep { hive: 0 })?;
    }
    for _step in 0..3 {
        events.push(Event::FlusherStep { hive: 1 })?;
    }
    Ok(events)
}

// what a crash with this tear leaves of it; all of that is synced
fn unclean(alloc: Global, tear: Tear) -> Result<MemDisk, Refusal> {
    let mut store = fresh(alloc, 2)?;
    ask_all(&mut store, alloc, flushed_halfway(alloc)?)?;
    Ok(left(alloc, store.disk(), tear)?)
}

// what is opened of it
const FLUSHED: OpenedStore = (2, *b"A----", *b"-B---");

// what is opened of a disk
fn found(alloc: Global, disk: MemDisk) -> Result<OpenedStore, Refusal> {
    let store = opened(alloc, disk)?;
    let first = keys(alloc, store.trees(), 0)?;
    let second = keys(alloc, store.trees(), 1)?;
    Ok((store.number(), first, second))
}

// whether what was there is opened of a disk after a crash with each tear
fn is_kept(alloc: Global, disk: &MemDisk) -> Result<bool, Refusal> {
    for tear in TEARS {
        if found(alloc, left(alloc, disk, tear)?)? != FLUSHED {
            return Ok(false);
        }
    }
    Ok(true)
}

// why an opening of a store with its repair is refused whose device fails at one call alone, and the disk as it is
// then; `None` if it makes no such call
fn unfinished(
    alloc: Global,
    disk: &MemDisk,
    call: u64,
) -> Result<Option<(Refusal, MemDisk)>, Refusal> {
    let (disk, plan) = planned(alloc, disk, Tear::New)?;
    plan.fail_at(call);
    match open(alloc, disk) {
        Ok(mut store) => match repair_all(&mut store) {
            Ok(()) => Ok(None),
            Err(why) => Ok(Some((why, store.into_disk()))),
        },
        Err(back) => Ok(Some(back)),
    }
}

// whether such an opening is refused, which is reported as a fault and leaves what was there, after a crash and without
// one; `None` if it makes no such call
fn faulted(alloc: Global, disk: &MemDisk, call: u64) -> Result<Option<bool>, Refusal> {
    let Some((why, disk)) = unfinished(alloc, disk, call)? else {
        return Ok(None);
    };
    let is_kept = is_kept(alloc, &disk)?;
    let found = found(alloc, disk)?;
    Ok(Some(is_kept && found == FLUSHED && why == Refusal::DiskFault))
}

// after the last call of such an opening
const TRIED: u64 = 50;

// how many of the first calls of such an opening fail it, one at a time, and whether each is reported and loses
// nothing; no later call fails it
fn faults(alloc: Global, before: Tear) -> Result<(u64, bool), Refusal> {
    let disk = unclean(alloc, before)?;
    let (mut faults, mut is_kept) = (0u64, true);
    for call in 1..TRIED {
        if let Some(told) = faulted(alloc, &disk, call)? {
            faults = faults.saturating_add(1);
            is_kept = is_kept && told && faults == call;
        }
    }
    Ok((faults, is_kept))
}

#[test]
fn an_opening_in_which_one_call_fails_loses_nothing(rt: HostRuntime) -> Result<(), Fail> {
    let alloc = rt.alloc();
    for before in TEARS {
        let (faults, is_kept) = faults(alloc, before)?;
        assert!(&rt; is_kept, "{before:?}");
        // the journal, two primary files and a log, each synced, measured and read, and a repair: pages, the last
        // sector and their syncs; and no more than were tried
        assert!(&rt; faults >= 16, "{faults} faults, {before:?}");
        assert!(&rt; faults < TRIED - 1, "{faults} faults, {before:?}");
    }
    Ok(())
}

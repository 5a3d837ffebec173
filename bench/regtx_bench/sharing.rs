//! A registry over the store that was opened, and the work that threads do with it.

use crate::calls::Calls;
use crate::check::print_rounds;
use crate::commits::{Flushing, Form, measure_commits, tell_commits};
use crate::reads::{Writing, measure_reads};
use crate::store::opened_store;
use crate::trouble::Trouble;
use crate::words::Work;
use disk_model::Disk;
use histories::{EventCount, Permission, RequestCount, Start};
use ktm_calls::{Asker, Ended, Registry};
use published_trees::{ChangeCount, SeenChanges};
use std::alloc::Global;
use std::marker::Brand;
use std::sync::Wait;
use std::sync::atomic::AtomicU64;
use std::sync::ledger::Blank;
use std::thread::Threads;
use std::time::Clock;
use store_engine::StoreEngine;

/// Opens the store that is on a disk, or makes it if that is wanted, and does a work over it.
///
/// Whether an engine may go to another thread is asked here, of any disk.
pub fn measure_store<D: Disk + Send + Drop, R: Print + Clock + Wait + Threads + Sync>(
    rt: &R,
    alloc: Global,
    disk: D,
    work: Work,
    syncs: &AtomicU64,
) -> Result<(), Trouble> {
    let engine = opened_store(alloc, disk, !matches!(work, Work::Check))?;
    let (count, seen) = ChangeCount::open();
    measure_shared::<Brand, _, _>(rt, alloc, engine, count, seen, work, syncs)
}

// shares an engine by a registry, and does a work over it
fn measure_shared<
    O: Start + Send + Sync,
    E: StoreEngine + Send + Drop,
    R: Print + Clock + Wait + Threads + Sync,
>(
    rt: &R,
    alloc: Global,
    engine: E,
    count: ChangeCount,
    seen: SeenChanges,
    work: Work,
    syncs: &AtomicU64,
) -> Result<(), Trouble> {
    let (requests, share) = Blank::new(1).open::<O>();
    let requests = RequestCount::new(requests);
    let events = EventCount::open();
    let asker = Asker::first(&events, &seen, Permission::sole(share));
    let registry = match Registry::<E, O>::new(alloc, rt, engine, events, requests, count, seen) {
        Ok(registry) => registry,
        Err((why, _engine)) => return Err(Trouble::Refused(why)),
    };
    let done = measure_on(rt, alloc, &registry, work, syncs);
    let Ended {
        engine: _,
        events: _,
        durable: _,
    } = registry.end(rt, asker, Vec::new(alloc));
    done
}

// the work
fn measure_on<
    O: Start + Send + Sync,
    E: StoreEngine + Send,
    R: Print + Clock + Wait + Threads + Sync,
>(
    rt: &R,
    alloc: Global,
    registry: &Registry<E, O>,
    work: Work,
    syncs: &AtomicU64,
) -> Result<(), Trouble> {
    let calls = Calls {
        rt,
        alloc,
        registry,
    };
    match work {
        Work::Commits(plan) => measure_commits(&calls, plan, Form::Calls, Flushing::Beside, syncs),
        Work::CommitsUnflushed(plan) => {
            measure_commits(&calls, plan, Form::Calls, Flushing::None, syncs)
        }
        Work::CommitsBusy(plan) => {
            measure_commits(&calls, plan, Form::Calls, Flushing::Busy, syncs)
        }
        Work::CommitsWhole(plan) => {
            measure_commits(&calls, plan, Form::Whole, Flushing::None, syncs)
        }
        Work::Acked(plan) => tell_commits(&calls, plan),
        Work::Reads(plan) => measure_reads(&calls, plan, Writing::None),
        Work::ReadsBesideAWriter(plan) => measure_reads(&calls, plan, Writing::Beside),
        Work::Check => print_rounds(&calls),
    }
}

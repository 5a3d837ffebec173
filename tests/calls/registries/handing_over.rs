//! A commit that is accepted while another's batch is on its way: it is in no batch yet when the other leaves, and has
//! to make one itself.
use crate::registries::calls::Calls;
use crate::registries::device::{Device, NO_FAILURE};
use crate::registries::playing::{Scene, play as play_scene};
use crate::registries::sharing::key_of;
use crate::registries::steps::Wrong;
use histories::Start;
use ktm_calls::{Registry, Session};
use refusals::Refusal;
use shared_store::{Worker, run_workers};
use std::alloc::Global;
use std::process::Abort;
use std::sync::atomic::{AtomicU64, Ordering};
use std::sync::{Arc, Wait};
use std::test::Fail;
use std::thread::{self, Threads};
use store_engine::StoreEngine;

// how often it is tried
const TRIES: u64 = 20;

// how often the second thread lets the first run, at most
const MOST_TURNS: u64 = 100_000;

/// Two threads that commit once, the second after the first has called the device.
#[derive(Drop)]
pub struct Committing {
    alloc: Global,
    // the calls of the device, and how many there were before
    calls: Arc<AtomicU64>,
    calls_before: AtomicU64,
    acknowledged: AtomicU64,
}

impl Committing {
    fn new(alloc: Global, calls: Arc<AtomicU64>) -> Committing {
        Committing {
            alloc,
            calls,
            calls_before: AtomicU64::new(0),
            acknowledged: AtomicU64::new(0),
        }
    }

    // until the device is called, or not at all if that comes too late
    fn wait(&self) {
        let before = self.calls_before.load(Ordering::SeqCst);
        for _ in 0..MOST_TURNS {
            if self.calls.load(Ordering::SeqCst) > before {
                return;
            }
            thread::yield_now();
        }
    }

    fn commit<E: StoreEngine, O: Start, R: Wait>(
        &self,
        calls: &Calls<'_, E, O, R>,
        session: &mut Session<O>,
        index: usize,
    ) -> Result<(), Refusal> {
        let tx = calls.begin(session)?;
        calls.create_in(session, tx, &key_of(calls.alloc, index)?, 1)?;
        if index > 0 {
            self.wait();
        }
        calls.commit(session, tx, 1)?;
        self.acknowledged.fetch_add(1, Ordering::SeqCst);
        Ok(())
    }

    fn commit_in_session<E: StoreEngine, O: Start, R: Wait>(
        &self,
        calls: &Calls<'_, E, O, R>,
        index: usize,
    ) -> Result<(), Refusal> {
        let mut session = calls.start()?;
        let committed = self.commit(calls, &mut session, index);
        calls.end(session)?;
        committed
    }
}

impl<E: StoreEngine, O: Start, R: Wait> Worker<E, O, R> for Committing {
    fn work(&self, rt: &R, registry: &Registry<E, O>, index: usize) {
        let calls = Calls {
            rt,
            alloc: self.alloc,
            registry,
        };
        let _ = self.commit_in_session(&calls, index);
    }
}

/// Both threads.
pub fn play<E: StoreEngine + Send, O: Start + Send + Sync, R: Threads + Wait + Sync>(
    calls: &Calls<'_, E, O, R>,
    committing: &Committing,
) -> Option<Wrong> {
    let before = committing.calls.load(Ordering::SeqCst);
    committing.calls_before.store(before, Ordering::SeqCst);
    run_workers(calls.rt, calls.registry, committing, 2);
    None
}

fn check<R: Threads + Wait + Sync + Abort>(rt: &R, alloc: Global) -> Result<(), Refusal> {
    let device = Device::new(alloc, NO_FAILURE)?;
    let committing = Committing::new(alloc, Arc::try_clone(&device.calls)?);
    let played = play_scene(rt, alloc, &device, Scene::HandingOver(&committing))?;
    assert!(rt; played.is_well(2), "{played:?}");
    assert_eq!(rt; committing.acknowledged.load(Ordering::SeqCst), 2);
    Ok(())
}

#[test]
fn a_commit_that_comes_during_a_batch_makes_the_next(rt: HostRuntime) -> Result<(), Fail> {
    for _ in 0..TRIES {
        check(&rt, rt.alloc())?;
    }
    Ok(())
}

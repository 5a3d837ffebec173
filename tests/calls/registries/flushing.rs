//! A commit in the middle of a flush: the flusher makes one step a turn, and holds no lock between two.
use crate::registries::calls::{Calls, key};
use crate::registries::device::{Device, NO_FAILURE};
use crate::registries::playing::{Scene, play as play_scene};
use crate::registries::steps::Wrong;
use disk_model::Progress;
use flusher::{Gate, run_beside};
use histories::Start;
use refusals::Refusal;
use std::sync::atomic::{AtomicBool, AtomicU64, Ordering};
use std::sync::{Arc, Wait};
use std::test::Fail;
use std::thread::{self, Threads};
use store_engine::StoreEngine;

/// How often one that waits lets others run, at most, before it gives up.
pub const MOST_TURNS: u64 = 10_000_000;

/// Holds the flusher at its first step that leaves more to do, until a commit is acknowledged, and counts what is wrong.
#[derive(Drop)]
pub struct Holding {
    // the calls of the device, and how many there were when the flusher last went on
    calls: Arc<AtomicU64>,
    calls_before: AtomicU64,
    held: AtomicBool,
    acknowledged: AtomicBool,
    // how often there was more than one call between two steps
    jumps: AtomicU64,
    // how often one that waited gave up
    given_up: AtomicU64,
    // how many parts were done after the commit
    done: AtomicU64,
    // how often the flusher stopped with all durable
    stopped: AtomicU64,
}

impl Holding {
    // over a device
    fn new(calls: Arc<AtomicU64>) -> Holding {
        Holding {
            calls,
            calls_before: AtomicU64::new(0),
            held: AtomicBool::new(false),
            acknowledged: AtomicBool::new(false),
            jumps: AtomicU64::new(0),
            given_up: AtomicU64::new(0),
            done: AtomicU64::new(0),
            stopped: AtomicU64::new(0),
        }
    }

    // what was counted
    fn counts(&self) -> [u64; 3] {
        [
            self.jumps.load(Ordering::SeqCst),
            self.given_up.load(Ordering::SeqCst),
            self.stopped.load(Ordering::SeqCst),
        ]
    }

    // the flusher goes on: its next step is counted from here
    fn go_on(&self) {
        let calls = self.calls.load(Ordering::SeqCst);
        self.calls_before.store(calls, Ordering::SeqCst);
    }

    // waits until this is so, or gives up
    fn wait(&self, so: &AtomicBool) {
        for _ in 0..MOST_TURNS {
            if so.load(Ordering::SeqCst) {
                return;
            }
            thread::yield_now();
        }
        self.given_up.fetch_add(1, Ordering::SeqCst);
    }

    // the flusher made calls since it last went on
    fn judge_calls(&self) {
        let before = self.calls_before.load(Ordering::SeqCst);
        if self.calls.load(Ordering::SeqCst).saturating_sub(before) > 1 {
            self.jumps.fetch_add(1, Ordering::SeqCst);
        }
    }
}

impl Gate for Holding {
    fn after_step(&self, progress: Progress) {
        self.judge_calls();
        if progress == Progress::More && !self.held.swap(true, Ordering::SeqCst) {
            self.wait(&self.acknowledged);
        }
        if progress == Progress::Done && self.acknowledged.load(Ordering::SeqCst) {
            self.done.fetch_add(1, Ordering::SeqCst);
        }
        self.go_on();
    }
}

/// A change is made durable; then a flusher begins, and another thread commits while it is held.
pub fn play<E: StoreEngine + Send, O: Start + Send + Sync, R: Threads + Wait + Sync>(
    calls: &Calls<'_, E, O, R>,
    holding: &Holding,
) -> Result<Option<Wrong>, Refusal> {
    let root = key(calls.alloc, "")?;
    let mut session = calls.start()?;
    calls.create(&mut session, &key(calls.alloc, "A")?, 1)?;
    calls.flush(&mut session, &root)?;
    holding.go_on();
    let (committed, flushed) = run_beside(calls.rt, calls.registry, holding, || {
        holding.wait(&holding.held);
        let committed = commit(calls);
        holding.acknowledged.store(true, Ordering::SeqCst);
        committed
    });
    holding
        .stopped
        .store(u64::from(flushed.is_ok()), Ordering::SeqCst);
    calls.end(session)?;
    committed?;
    Ok(None)
}

// a commit in a session of its own
fn commit<E: StoreEngine, O: Start, R: Wait>(calls: &Calls<'_, E, O, R>) -> Result<(), Refusal> {
    let mut session = calls.start()?;
    let tx = calls.begin(&mut session)?;
    calls.create_in(&mut session, tx, &key(calls.alloc, "B")?, 1)?;
    calls.commit(&mut session, tx, 1)?;
    calls.end(session)?;
    Ok(())
}

#[test]
fn a_commit_is_acknowledged_in_the_middle_of_a_flush(rt: HostRuntime) -> Result<(), Fail> {
    let alloc = rt.alloc();
    let device = Device::new(alloc, NO_FAILURE)?;
    let holding = Holding::new(Arc::try_clone(&device.calls)?);
    let played = play_scene(&rt, alloc, &device, Scene::Holding(&holding))?;
    assert!(rt; played.is_well(2), "{played:?}");
    assert_eq!(rt; holding.counts(), [0, 0, 1]);
    assert!(rt; holding.done.load(Ordering::SeqCst) > 0);
    Ok(())
}

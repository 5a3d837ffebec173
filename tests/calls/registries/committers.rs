//! Threads that commit until the device fails: each commit ends, whoever made the step that failed.
use crate::registries::calls::{Answer, Calls};
use crate::registries::device::Device;
use crate::registries::playing::{Scene, play as play_scene};
use crate::registries::sharing::{THREADS, key_of};
use crate::registries::steps::Wrong;
use flusher::{OpenGate, run_beside};
use histories::Start;
use ktm_calls::{Denied, EventKind, Key, Registry, Session};
use refusals::Refusal;
use shared_store::{Worker, run_workers};
use std::alloc::Global;
use std::process::Abort;
use std::sync::Wait;
use std::sync::atomic::{AtomicU64, Ordering};
use std::test::Fail;
use std::thread::{self, Threads};
use store_engine::StoreEngine;

// how often a thread lets others run, at most, until all have begun
const MOST_TURNS: u64 = 100_000;

// more commits than a thread makes before the device fails
const MOST_COMMITS: u64 = 1_000;

/// Threads that commit, each until it is refused, and how often which refusal came.
#[derive(Drop)]
pub struct Committers {
    alloc: Global,
    with_flusher: bool,
    // how many threads have begun
    begun: AtomicU64,
    // the device's failure itself, an earlier one, and what the rules don't allow
    failed: AtomicU64,
    faulted: AtomicU64,
    wrong: AtomicU64,
}

/// What became of a commit.
#[derive(Clone, Copy)]
enum End {
    Acknowledged,
    Refused(Refusal),
    /// What is read after it isn't what the rules say.
    Misread,
}

impl Committers {
    fn new(alloc: Global, with_flusher: bool) -> Committers {
        Committers {
            alloc,
            with_flusher,
            begun: AtomicU64::new(0),
            failed: AtomicU64::new(0),
            faulted: AtomicU64::new(0),
            wrong: AtomicU64::new(0),
        }
    }

    // lets all threads begin, so that many wait when the device fails. What is counted is the same if they don't
    fn begin(&self) {
        self.begun.fetch_add(1, Ordering::SeqCst);
        for _ in 0..MOST_TURNS {
            if self.begun.load(Ordering::SeqCst) >= THREADS as u64 {
                return;
            }
            thread::yield_now();
        }
    }

    // one thread, or the flusher, has ended so
    fn count(&self, end: End) {
        let counter = match end {
            End::Refused(Refusal::DiskFault) => &self.failed,
            End::Refused(Refusal::Faulted) => &self.faulted,
            _ => &self.wrong,
        };
        counter.fetch_add(1, Ordering::SeqCst);
    }
}

impl<E: StoreEngine, O: Start, R: Wait> Worker<E, O, R> for Committers {
    fn work(&self, rt: &R, registry: &Registry<E, O>, index: usize) {
        let calls = Calls {
            rt,
            alloc: self.alloc,
            registry,
        };
        self.begin();
        match commit_in_session(&calls, index) {
            Ok(end) => self.count(end),
            Err(why) => self.count(End::Refused(why)),
        }
    }
}

// commits in a session of its own until it is refused
fn commit_in_session<E: StoreEngine, O: Start, R: Wait>(
    calls: &Calls<'_, E, O, R>,
    index: usize,
) -> Result<End, Refusal> {
    let own = key_of(calls.alloc, index)?;
    let mut session = calls.start()?;
    let end = commit_all(calls, &mut session, &own);
    // also if it was refused
    match calls.end(session)? {
        Answer::Done => end,
        _ => Ok(End::Misread),
    }
}

fn commit_all<E: StoreEngine, O: Start, R: Wait>(
    calls: &Calls<'_, E, O, R>,
    session: &mut Session<O>,
    own: &Key,
) -> Result<End, Refusal> {
    calls.create(session, own, 0)?;
    for moment in 1..MOST_COMMITS {
        match commit(calls, session, own, moment)? {
            End::Acknowledged => {}
            end => return Ok(end),
        }
    }
    Ok(End::Acknowledged)
}

// commits a value at a moment. If the commit's own event is refused nothing is accepted; else the change stays so, and
// is read, also if it isn't acknowledged
fn commit<E: StoreEngine, O: Start, R: Wait>(
    calls: &Calls<'_, E, O, R>,
    session: &mut Session<O>,
    own: &Key,
    moment: u64,
) -> Result<End, Refusal> {
    let tx = calls.begin(session)?;
    calls.set_in(session, tx, own, "v", 1)?;
    let (accepted, end) = match calls
        .registry
        .commit_transaction(calls.rt, session, tx, moment)
    {
        Ok((_receipt, _told)) => (true, End::Acknowledged),
        Err(denied) => (is_accepted(&denied), end_of(&denied)),
    };
    let written = if accepted {
        moment
    } else {
        moment.saturating_sub(1)
    };
    match calls.info(session, own)? {
        Answer::Counts(_, _, time) if time == written => Ok(end),
        _ => Ok(End::Misread),
    }
}

// whether a commit that was denied stays accepted
fn is_accepted(denied: &Denied) -> bool {
    match denied {
        Denied::Told(told) => matches!(
            told.kind(),
            EventKind::Acked { .. } | EventKind::JournalStep
        ),
        Denied::NoMemory => false,
    }
}

fn end_of(denied: &Denied) -> End {
    match denied.refusal() {
        Some(refusal) => End::Refused(refusal),
        None => End::Misread,
    }
}

/// The device is to fail, and threads commit until it does.
pub fn play<E: StoreEngine + Send, O: Start + Send + Sync, R: Threads + Wait + Sync>(
    calls: &Calls<'_, E, O, R>,
    device: &Device,
    committers: &Committers,
) -> Result<Option<Wrong>, Refusal> {
    device.fail();
    if !committers.with_flusher {
        run_workers(calls.rt, calls.registry, committers, THREADS);
        return Ok(None);
    }
    let (_done, flushed) = run_beside(calls.rt, calls.registry, &OpenGate, || {
        run_workers(calls.rt, calls.registry, committers, THREADS)
    });
    match flushed {
        Ok(_stopped) => committers.count(End::Acknowledged),
        Err(told) => committers.count(end_of(&Denied::Told(told))),
    }
    Ok(None)
}

// what was counted
fn counts(committers: &Committers) -> [u64; 3] {
    [
        committers.failed.load(Ordering::SeqCst),
        committers.faulted.load(Ordering::SeqCst),
        committers.wrong.load(Ordering::SeqCst),
    ]
}

// threads that commit until this call of the device fails
fn check_failing<R: Threads + Wait + Sync + Abort>(
    rt: &R,
    alloc: Global,
    call: u64,
    with_flusher: bool,
) -> Result<(), Refusal> {
    let device = Device::new(alloc, call)?;
    let committers = Committers::new(alloc, with_flusher);
    let played = play_scene(rt, alloc, &device, Scene::Committing(&committers))?;
    // all ended, and one met the failure itself
    let others = THREADS as u64 - 1 + u64::from(with_flusher);
    assert!(rt; played.is_well(played.durable), "{played:?}");
    assert_eq!(rt; counts(&committers), [1, others, 0], "call {call}");
    Ok(())
}

#[test]
fn no_committer_sleeps_on_after_the_device_has_failed(rt: HostRuntime) -> Result<(), Fail> {
    for call in [1, 2, 3, 4, 7, 16, 41, 82, 123] {
        check_failing(&rt, rt.alloc(), call, false)?;
        check_failing(&rt, rt.alloc(), call, true)?;
    }
    Ok(())
}

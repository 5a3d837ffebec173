//! A registry over a new store on a disk in memory, and what is played on it.

use crate::registries::calls::{Calls, share};
use crate::registries::committers::Committers;
use crate::registries::device::{Device, TestDisk};
use crate::registries::flushing::Holding;
use crate::registries::handing_over::Committing;
use crate::registries::sharing::Sharing;
use crate::registries::steps::Wrong;
use crate::registries::{committers, flushing, handing_over, sharing, steps};
use engine::Engine;
use histories::Start;
use ktm_calls::{Asker, Ended, Receipt, Registry, Session};
use published_trees::{ChangeCount, MOST_READERS, SeenChanges};
use recovery::Opened;
use refusals::Refusal;
use reg_names::Path;
use reg_tree::Trees;
use std::alloc::Global;
use std::marker::Brand;
use std::sync::Wait;
use std::thread::Threads;
use store_engine::StoreEngine;
use store_model::{Event, Question, Reply, Tx};
use uuid::Uuid;

/// What is played.
#[derive(Clone, Copy)]
pub enum Scene<'a> {
    /// Steps of one thread.
    Alone(&'a str),
    /// Steps of one thread, with a flusher beside it.
    Beside(&'a str),
    /// A commit in the middle of a flush.
    Holding(&'a Holding),
    /// Threads that hand each other what they have written.
    Sharing(&'a Sharing),
    /// Threads that commit until the device fails.
    Committing(&'a Committers),
    /// A commit during the batch of another.
    HandingOver(&'a Committing),
}

/// What a scene leaves open at the end of its registry.
#[derive(Drop)]
pub struct Left<O: Start> {
    /// Sessions that are open.
    pub sessions: Vec<Session<O>>,
    /// Transactions that were begun.
    pub transactions: Vec<Tx>,
    /// Receipts.
    pub receipts: Vec<Receipt<O>>,
}

/// The end of a scene and of its registry.
#[derive(Clone, Copy, Debug)]
pub struct Played {
    /// The first answer that is not as expected.
    pub wrong: Option<Wrong>,
    /// The number up to which changes are durable.
    pub durable: u64,
    /// Whether a session is open in the engine that comes back.
    pub is_open: bool,
}

impl Played {
    /// Whether it is as it should be, with this number durable.
    pub fn is_well(&self, durable: u64) -> bool {
        self.wrong.is_none() && self.durable == durable && !self.is_open
    }
}

/// Plays a scene on a new store over a device, and ends its registry.
pub fn play<R: Threads + Wait + Sync>(
    rt: &R,
    alloc: Global,
    device: &Device,
    scene: Scene<'_>,
) -> Result<Played, Refusal> {
    let engine = new_engine(alloc, device)?;
    let (count, seen) = ChangeCount::open();
    play_over::<Brand, _, _>(rt, alloc, device, engine, count, seen, scene)
}

/// An engine over a new store of two hives.
pub fn new_engine(alloc: Global, device: &Device) -> Result<Engine<TestDisk>, Refusal> {
    let mut disk = device.disk(alloc)?;
    make(alloc, &mut disk)?;
    let engine = begin(alloc, open(alloc, disk)?)?;
    Ok(engine)
}

/// Makes a store of two hives.
pub fn make(alloc: Global, disk: &mut TestDisk) -> Result<(), Refusal> {
    let trees = Trees::new(alloc, 2)?;
    recovery::create(alloc, disk, Uuid::nil(), &trees)
}

// an engine over a store of which no repair is left
fn begin(alloc: Global, store: Opened<TestDisk>) -> Result<Engine<TestDisk>, Refusal> {
    if !store.is_whole() {
        return Err(Refusal::Faulted);
    }
    match Engine::new(alloc, store) {
        Ok(engine) => Ok(engine),
        Err((why, _store)) => Err(why),
    }
}

/// What is opened of a disk.
pub fn open(alloc: Global, disk: TestDisk) -> Result<Opened<TestDisk>, Refusal> {
    match recovery::open(alloc, disk) {
        Ok(store) => Ok(store),
        Err((why, _disk)) => Err(why),
    }
}

// the scene, on a registry of its own
fn play_over<O: Start + Send + Sync, E: StoreEngine + Drop + Send, R: Threads + Wait + Sync>(
    rt: &R,
    alloc: Global,
    device: &Device,
    engine: E,
    count: ChangeCount,
    seen: SeenChanges,
    scene: Scene<'_>,
) -> Result<Played, Refusal> {
    let (registry, asker) = share::<E, O, R>(rt, alloc, engine, count, seen)?;
    let mut left = Left {
        sessions: Vec::new(alloc),
        transactions: Vec::new(alloc),
        receipts: Vec::new(alloc),
    };
    let wrong = play_on(rt, alloc, device, &registry, scene, &mut left);
    end(rt, alloc, registry, asker, left, wrong)
}

// ends the registry
fn end<O: Start, E: StoreEngine + Drop, R: Wait>(
    rt: &R,
    alloc: Global,
    registry: Registry<E, O>,
    asker: Asker<O>,
    left: Left<O>,
    wrong: Result<Option<Wrong>, Refusal>,
) -> Result<Played, Refusal> {
    let Left {
        sessions: _,
        transactions: _,
        receipts,
    } = left;
    let Ended {
        mut engine,
        events: _,
        durable,
    } = registry.end(rt, asker, receipts);
    Ok(Played {
        wrong: wrong?,
        durable,
        is_open: has_session(alloc, &mut engine)?,
    })
}

// whether a session is open: a read of one that isn't is refused
fn has_session<E: StoreEngine>(alloc: Global, engine: &mut E) -> Result<bool, Refusal> {
    for number in 0..MOST_READERS {
        let event = Event::Read {
            session: number as u32,
            hive: 0,
            path: Path::root(alloc)?,
            question: Question::InfoOf,
        };
        if !is_unknown(&engine.event(event)) {
            return Ok(true);
        }
    }
    Ok(false)
}

// whether there is no such session
fn is_unknown(reply: &Reply) -> bool {
    matches!(
        reply,
        Reply::Refused {
            refusal: Refusal::NoSuchHandle
        }
    )
}

// the scene; the first answer that is not as expected
fn play_on<O: Start + Send + Sync, E: StoreEngine + Send, R: Threads + Wait + Sync>(
    rt: &R,
    alloc: Global,
    device: &Device,
    registry: &Registry<E, O>,
    scene: Scene<'_>,
    left: &mut Left<O>,
) -> Result<Option<Wrong>, Refusal> {
    let calls = Calls {
        rt,
        alloc,
        registry,
    };
    match scene {
        Scene::Alone(table) => steps::play(&calls, device, left, table),
        Scene::Beside(table) => steps::play_beside(&calls, device, left, table),
        Scene::Holding(holding) => flushing::play(&calls, holding),
        Scene::Sharing(sharing) => sharing::play(&calls, sharing, left),
        Scene::HandingOver(committing) => Ok(handing_over::play(&calls, committing)),
        Scene::Committing(committers) => committers::play(&calls, device, committers),
    }
}
